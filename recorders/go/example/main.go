// A queue that four goroutines put into and take from: `right` under one lock, or `wrong`, where the look at the first item and its
// removal are two steps without the lock; `narrow` is as wrong, without a pause between the two. The second word is the number
// of rounds.
package main

import (
	"fmt"
	"os"
	"runtime"
	"strconv"
	"sync"
	"sync/atomic"

	"recorders/lincheck"
)

type queue struct {
	asked       string
	lock        sync.Mutex
	first, last atomic.Int64
	items       []int
}

func (q *queue) put(item int) {
	q.lock.Lock()
	defer q.lock.Unlock()
	q.items[q.last.Load()] = item
	q.last.Add(1)
}

// take returns an item, or nil where there is none.
func (q *queue) take() any {
	if q.asked == "right" {
		q.lock.Lock()
		defer q.lock.Unlock()
	}
	at := q.first.Load()
	if at == q.last.Load() {
		return nil
	}
	if q.asked == "wrong" {
		runtime.Gosched()
	}
	q.first.Store(at + 1)
	return q.items[at]
}

func main() {
	const threads = 4
	rounds := 100
	if len(os.Args) > 2 {
		rounds, _ = strconv.Atoi(os.Args[2])
	}
	items := &queue{asked: os.Args[1], items: make([]int, threads*rounds)}
	recorder := lincheck.New()
	recorder.Object("q", "queue", 0)
	var waiting atomic.Int32
	var done sync.WaitGroup
	waiting.Store(threads)
	done.Add(threads)
	for thread := 0; thread < threads; thread++ {
		go func(first int) {
			defer done.Done()
			me := recorder.Process()
			for waiting.Add(-1); waiting.Load() > 0; {
				runtime.Gosched()
			}
			for item := first; item < first+rounds; item++ {
				me.Record("q", "enq", lincheck.Args{item}, func() (any, error) { items.put(item); return lincheck.OK, nil })
				me.Record("q", "deq", nil, func() (any, error) { return items.take(), nil })
			}
		}(thread * rounds)
	}
	done.Wait()
	if err := recorder.Write(os.Stdout); err != nil {
		fmt.Fprintln(os.Stderr, err)
		os.Exit(70)
	}
}

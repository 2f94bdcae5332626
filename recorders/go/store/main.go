// A key-value store behind a network that loses messages, and clients that give up after a time: `right`, or `wrong`, where a
// copy that lags behind answers the reads. The second word is the number of rounds.
package main

import (
	"errors"
	"fmt"
	"math/rand"
	"os"
	"strconv"
	"sync"
	"time"

	"recorders/lincheck"
)

const (
	clients  = 3
	lost     = 0.02 // of each message the share that is lost
	patience = 20 * time.Millisecond
)

var (
	errBusy    = errors.New("the store never got the request")
	errTimeout = errors.New("no answer came in time")
)

type request struct {
	key, value string // no value: a read
	reply      chan any
}

type store chan request

func (s store) serve(asked string) {
	values, copied := map[string]any{}, map[string]any{}
	for count := 0; ; count++ {
		it := <-s
		if rand.Float64() < lost {
			continue
		}
		if asked == "right" || count%4 == 0 {
			copied = map[string]any{}
			for key, value := range values {
				copied[key] = value
			}
		}
		answer := copied[it.key]
		if it.value != "" {
			values[it.key], answer = it.value, lincheck.OK
		}
		if rand.Float64() >= lost {
			it.reply <- answer
		}
	}
}

func (s store) ask(key, value string) (any, error) {
	reply := make(chan any, 1)
	select {
	case s <- request{key, value, reply}:
	default:
		return nil, errBusy
	}
	select {
	case answer := <-reply:
		return answer, nil
	case <-time.After(patience):
		return nil, errTimeout
	}
}

func main() {
	rounds := 30
	if len(os.Args) > 2 {
		rounds, _ = strconv.Atoi(os.Args[2])
	}
	rand.Seed(time.Now().UnixNano())
	kept := make(store, 2)
	go kept.serve(os.Args[1])
	recorder := lincheck.New()
	recorder.Object("m", "map", 0)
	var done sync.WaitGroup
	done.Add(clients)
	for client := 0; client < clients; client++ {
		go func(client int) {
			defer done.Done()
			me := recorder.Process()
			for round := 0; round < rounds; round++ {
				key, value := []string{"apple", "pear"}[rand.Intn(2)], fmt.Sprintf("%d-%d", client, round)
				me.Record("m", "put", lincheck.Args{key, value}, func() (any, error) { return kept.ask(key, value) }, errBusy)
				me.Record("m", "get", lincheck.Args{key}, func() (any, error) { return kept.ask(key, "") }, errBusy)
			}
		}(client)
	}
	done.Wait()
	if err := recorder.Write(os.Stdout); err != nil {
		fmt.Fprintln(os.Stderr, err)
		os.Exit(70)
	}
}

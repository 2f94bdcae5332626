// What bin/check-recorders asks of the recorder itself: `all` records each kind of event, `refused` prints what is said of each
// mistake, `running` writes while threads run, `cost` prints the nanoseconds that a recorded call takes, and `stuck FILE` hangs in a
// call.
package main

import (
	"errors"
	"fmt"
	"os"
	"runtime"
	"sync/atomic"
	"time"

	"recorders/lincheck"
)

var errRefused, errUnknown = errors.New("refused"), errors.New("unknown")

func answer(reply any, err error) func() (any, error) {
	return func() (any, error) { return reply, err }
}

func all() error {
	recorder := lincheck.New()
	recorder.Object("q", "queue", 0)
	recorder.Object("x", "register", 7)
	recorder.Object("m", "map", 0)
	recorder.Object("s", "set", 0)
	red := "r\"e\\d\x01\u00e9"
	me, other := recorder.ProcessOf(5), recorder.Process()
	me.Record("q", "enq", lincheck.Args{1}, answer(lincheck.OK, nil))
	me.Record("q", "deq", nil, answer(1, nil))
	me.Record("q", "deq", nil, answer(nil, nil))
	other.Record("x", "cas", lincheck.Args{7, 8}, answer(true, nil))
	other.Call("x", "write", lincheck.Args{9})
	other.Fail()
	me.Record("m", "put", lincheck.Args{"apple", red}, answer(nil, nil))
	other.Record("m", "get", lincheck.Args{"apple"}, answer(red, nil))
	me.Record("x", "write", lincheck.Args{3}, answer(nil, errUnknown), errRefused)
	me.Record("m", "put", lincheck.Args{"pear", 4}, answer(nil, fmt.Errorf("put: %w", errRefused)), errRefused)
	me.Call("s", "add", lincheck.Args{1})
	me.Ret(true)
	other.Call("x", "read", nil)
	other.Ret(8)
	other.Call("q", "enq", lincheck.Args{2})
	other.Info()
	me.Call("s", "contains", lincheck.Args{2})
	return recorder.Write(os.Stdout)
}

func tell(mistake func()) {
	defer func() {
		if told := recover(); told != nil {
			fmt.Println(told)
		} else {
			fmt.Println("taken")
		}
	}()
	mistake()
}

func refused() {
	recorder := lincheck.New()
	recorder.Object("q", "queue", 0)
	tell(func() { recorder.Object("a b", "queue", 0) })
	tell(func() { recorder.Object("r", "deque", 0) })
	tell(func() { recorder.Object("r", "queue", 1) })
	tell(func() { recorder.Object("q", "stack", 0) })
	me := recorder.ProcessOf(5)
	tell(func() { recorder.ProcessOf(5) })
	tell(func() { recorder.Object("r", "queue", 0) })
	tell(func() { me.Call("y", "enq", lincheck.Args{1}) })
	tell(func() { me.Call("q", "push", lincheck.Args{1}) })
	tell(func() { me.Call("q", "enq", lincheck.Args{1, 2}) })
	tell(func() { me.Ret(lincheck.OK) })
	me.Call("q", "enq", lincheck.Args{1})
	tell(func() { me.Call("q", "deq", nil) })
	tell(func() { me.Ret(1) })
	me.Ret(lincheck.OK)
	me.Call("q", "deq", nil)
	tell(func() { me.Ret(lincheck.OK) })
}

func values() {
	recorder := lincheck.New()
	recorder.Object("q", "queue", 0)
	me := recorder.Process()
	tell(func() { me.Call("q", "enq", lincheck.Args{[]int{7}}) })
	tell(func() { me.Record("q", "enq", lincheck.Args{map[int]int{7: 8}}, answer(nil, nil)) })
	me.Call("q", "deq", nil)
	tell(func() { me.Ret([]any{7}) })
	tell(func() { me.Ret(struct{ inner any }{[]int{7}}) })
}

func running() error {
	recorder := lincheck.New()
	recorder.Object("n", "counter", 0)
	var count atomic.Int64
	for i := 0; i < 3; i++ {
		go func() {
			me := recorder.Process()
			for round := 0; round < 1000; round++ {
				me.Record("n", "add", lincheck.Args{1}, func() (any, error) { count.Add(1); return lincheck.OK, nil })
				me.Record("n", "get", nil, func() (any, error) { return count.Load(), nil })
			}
		}()
	}
	for count.Load() < 300 {
		runtime.Gosched()
	}
	return recorder.Write(os.Stdout)
}

func cost() {
	const calls = 10000
	recorder := lincheck.New()
	recorder.Object("q", "queue", 0)
	me := recorder.Process()
	least := time.Hour
	for batch := 0; batch < 20; batch++ {
		start := time.Now()
		for i := 0; i < calls; i++ {
			me.Record("q", "enq", lincheck.Args{i}, func() (any, error) { return lincheck.OK, nil })
		}
		if taken := time.Since(start); taken < least {
			least = taken
		}
	}
	fmt.Println(least.Nanoseconds() / calls)
}

func stuck(file string) {
	recorder := lincheck.New()
	recorder.Object("q", "queue", 0)
	defer recorder.WriteAtEnd(file)()
	done := make(chan bool)
	go func() {
		recorder.Process().Record("q", "enq", lincheck.Args{1}, func() (any, error) {
			fmt.Println("ready")
			select {}
		})
		close(done)
	}()
	<-done
}

func main() {
	asked := append(os.Args[1:], "", "")
	switch asked[0] {
	case "all":
		if err := all(); err != nil {
			os.Exit(70)
		}
	case "refused":
		refused()
	case "values":
		values()
	case "running":
		if err := running(); err != nil {
			os.Exit(70)
		}
	case "cost":
		cost()
	case "stuck":
		stuck(asked[1])
	}
}

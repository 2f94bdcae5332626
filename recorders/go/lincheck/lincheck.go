// Package lincheck records what goroutines call on objects, as a history for lincheck. Copy this folder; it needs the standard
// library alone (Go 1.19).
//
//	recorder := lincheck.New()
//	recorder.Object("q", "queue", 0)  // before the first process
//	me := recorder.Process()          // one for each goroutine
//	me.Record("q", "enq", lincheck.Args{7}, func() (any, error) { items.Put(7); return lincheck.OK, nil })
//	me.Record("q", "deq", nil, func() (any, error) { return items.Take(), nil })
//	err := recorder.Write(os.Stdout)  // at any time
//
// What the operation returns is the reply: lincheck.OK, a bool, a whole number or any other value; nil says that there was
// none, or of an operation that answers ok that it is done. After an error nobody knows whether the call was done (Info),
// unless it is one of the errors that stand behind the operation, which say that it was not (Fail); Record returns the error.
// After a panic nobody knows either. me.Call("q", "enq", lincheck.Args{7}), then Ret, Fail or Info, do the same in two lines.
//
// After Info the goroutine goes on as a new process, with a number of its own. A value that is no whole number, as an argument
// or a reply, is recorded by a whole number that stands for it: equal values, equal numbers (Value). A slice, a map or another
// value that cannot be compared is none. What is given wrongly (a name, a kind, an operation, a value, a call while one is
// pending) panics.
//
// Write may be called while goroutines run or hang: calls that have not returned are pending. `defer
// recorder.WriteAtEnd("history.jsonl")()` writes the history when the function ends, also by a panic, or when SIGHUP, SIGINT or
// SIGTERM ends the program. Go runs nothing after os.Exit, nor when another goroutine panics.
package lincheck

import (
	"bufio"
	"encoding/json"
	"errors"
	"fmt"
	"io"
	"math"
	"os"
	"os/signal"
	"reflect"
	"regexp"
	"sort"
	"strings"
	"sync"
	"sync/atomic"
	"syscall"
)

// OK is the reply of an operation that answers nothing but that it is done.
const OK = okay("ok")

type okay string

// Args are the arguments of a call: whole numbers, or values that are numbered.
type Args []any

type operation struct {
	name      string
	args      int
	answersOK bool
}

type kind struct {
	hasStart   bool
	operations []operation
}

var kinds = map[string]kind{
	"register": {true, []operation{{"write", 1, true}, {"read", 0, false}, {"cas", 2, false}}},
	"counter":  {true, []operation{{"add", 1, true}, {"get", 0, false}}},
	"queue":    {false, []operation{{"enq", 1, true}, {"deq", 0, false}}},
	"stack":    {false, []operation{{"push", 1, true}, {"pop", 0, false}}},
	"set":      {false, []operation{{"add", 1, false}, {"remove", 1, false}, {"contains", 1, false}}},
	"mutex":    {false, []operation{{"lock", 0, true}, {"unlock", 0, true}, {"try_lock", 0, false}}},
	"map":      {false, []operation{{"put", 2, true}, {"get", 1, false}, {"delete", 1, false}}},
}

type what uint8

const (
	called what = iota
	ok
	number
	flag
	empty
	failed
	unknown
)

// An event is a call or its end, in plain numbers. The instant of a call that is about to begin is 0.
type event struct {
	instant   uint64
	process   uint32
	object    uint16
	operation uint8
	what      what
	values    [2]int64 // the arguments, or the reply
}

const room = 512

type chunk struct {
	events *[room]event // by themselves, so that the garbage collector need not look through them
	next   atomic.Pointer[chunk]
}

func newChunk() *chunk { return &chunk{events: new([room]event)} }

type object struct {
	name, kind string
	start      int64
	operations []operation
}

// A Recorder is a history that is being recorded.
type Recorder struct {
	_         [64]byte
	instants  atomic.Uint64 // in a cache line of its own
	_         [64]byte
	objects   []object
	lock      sync.Mutex // of the processes and of their numbers; events are kept without it
	processes []*Process
	numbers   map[uint32]bool
	greatest  uint32
	values    sync.Map // from a value to its number
	count     atomic.Int64
}

// New makes a recorder.
func New() *Recorder {
	made := &Recorder{numbers: map[uint32]bool{}}
	made.instants.Store(1)
	made.count.Store(firstValue)
	return made
}

var isName = regexp.MustCompile(`^[A-Za-z0-9_./:-]{1,64}$`)

// Few tests use numbers as large as those of values.
const firstValue = 9000000000000000001

// Object declares an object, before the first process. A register and a counter may start with another number than 0.
func (r *Recorder) Object(name, kind string, start int64) {
	r.lock.Lock()
	defer r.lock.Unlock()
	require(isName.MatchString(name), "no name of an object: %s", name)
	of, isKind := kinds[kind]
	require(isKind, "no kind of an object: %s", kind)
	require(start == 0 || of.hasStart, "%s has no start", kind)
	require(len(r.processes) == 0, "objects are declared before the first process")
	require(r.find(name) < 0, "object is declared already: %s", name)
	require(len(r.objects) < 1024, "more than 1024 objects")
	r.objects = append(r.objects, object{name, kind, start, of.operations})
}

// Process makes a process for one goroutine, whose number is one more than the greatest until now.
func (r *Recorder) Process() *Process {
	r.lock.Lock()
	defer r.lock.Unlock()
	return r.addProcess(r.nextNumber())
}

// ProcessOf is the same with this number, which no process has or had.
func (r *Recorder) ProcessOf(number uint32) *Process {
	r.lock.Lock()
	defer r.lock.Unlock()
	require(!r.numbers[number], "process %d is there already", number)
	r.takeNumber(number)
	return r.addProcess(number)
}

// Value is the whole number that stands for a value, which can be compared: a whole number itself, and equal numbers for equal
// values.
func (r *Recorder) Value(value any) int64 {
	switch it := value.(type) {
	case int:
		return int64(it)
	case int64:
		return it
	}
	if it := reflect.ValueOf(value); it.CanInt() {
		return it.Int()
	} else if it.CanUint() && it.Uint() <= math.MaxInt64 {
		return int64(it.Uint())
	}
	requireValue(reflect.ValueOf(value))
	if known, is := r.values.Load(value); is {
		return known.(int64)
	}
	known, _ := r.values.LoadOrStore(value, r.count.Add(1)-1)
	return known.(int64)
}

// Write writes what has been recorded. Calls that have not returned are pending.
func (r *Recorder) Write(to io.Writer) error {
	events := r.events()
	texts := map[int64]string{}
	r.values.Range(func(value, number any) bool {
		texts[number.(int64)] = quoted(value)
		return true
	})
	out := bufio.NewWriter(to)
	fmt.Fprintln(out, `{"format":2}`)
	for _, it := range r.objects {
		start := ""
		if it.start != 0 {
			start = fmt.Sprintf(`,"start":%d`, it.start)
		}
		fmt.Fprintf(out, `{"event":"object","object":"%s","kind":"%s"%s}`+"\n", it.name, it.kind, start)
	}
	for _, it := range events {
		fmt.Fprintln(out, r.line(it.event, texts))
	}
	return out.Flush()
}

// WriteAtEnd returns a function for `defer`, which writes the history to this file. It is also written when a signal ends the
// program. A file is removed until then; a device, a pipe or a link is not.
func (r *Recorder) WriteAtEnd(path string) func() {
	if it, err := os.Lstat(path); err == nil && it.Mode().IsRegular() {
		os.Remove(path)
	}
	var once sync.Once
	write := func() {
		if err := r.writeFile(path); err != nil {
			fmt.Fprintln(os.Stderr, "lincheck: the history was not written:", err)
		}
	}
	caught := make(chan os.Signal, 1)
	signal.Notify(caught, syscall.SIGHUP, syscall.SIGINT, syscall.SIGTERM)
	go func() {
		number := (<-caught).(syscall.Signal)
		once.Do(write)
		signal.Reset(number)
		if self, err := os.FindProcess(os.Getpid()); err != nil || self.Signal(number) != nil {
			os.Exit(128 + int(number))
		}
	}()
	return func() { once.Do(write) }
}

func (r *Recorder) writeFile(path string) error {
	file, err := os.Create(path)
	if err != nil {
		return err
	}
	if err := r.Write(file); err != nil {
		file.Close()
		return err
	}
	return file.Close()
}

// An event with its place in time: a call without an instant is right behind the event of its process before.
type placed struct {
	instant uint64
	event   *event
}

// All events before an instant. The calls that have begun by then are seen, since a call is shown before it takes its instant.
func (r *Recorder) events() []placed {
	cut := r.instants.Load()
	r.lock.Lock()
	processes := append([]*Process(nil), r.processes...)
	r.lock.Unlock()
	var events []placed
	for _, process := range processes {
		from, last := process.first, uint64(0)
		for at, length := 0, int(process.length.Load()); at < length; at++ {
			if at > 0 && at%room == 0 {
				from = from.next.Load()
			}
			it := &from.events[at%room]
			instant := atomic.LoadUint64(&it.instant)
			if instant >= cut {
				break
			}
			if instant > last {
				last = instant
			}
			events = append(events, placed{last, it})
		}
	}
	sort.SliceStable(events, func(i, j int) bool { return events[i].instant < events[j].instant })
	return events
}

func (r *Recorder) line(it *event, texts map[int64]string) string {
	object := r.objects[it.object]
	line := func(event, more string) string {
		return fmt.Sprintf(`{"event":"%s","process":%d,"object":"%s"%s}`, event, it.process, object.name, more)
	}
	switch it.what {
	case called:
		operation := object.operations[it.operation]
		return line("call", fmt.Sprintf(`,"op":"%s","args":%s`, operation.name, argsOf(it.values[:operation.args], texts)))
	case ok:
		return line("return", `,"result":"ok"`)
	case number:
		more := fmt.Sprintf(`,"result":%d`, it.values[0])
		if text, is := texts[it.values[0]]; is {
			more += `,"text":` + text
		}
		return line("return", more)
	case flag:
		return line("return", fmt.Sprintf(`,"result":%t`, it.values[0] != 0))
	case empty:
		return line("return", `,"result":null`)
	case failed:
		return line("fail", "")
	default:
		return line("info", "")
	}
}

// The list of arguments, and that of the texts behind them where there is one.
func argsOf(args []int64, texts map[int64]string) string {
	var numbers, words []string
	hasText := false
	for _, arg := range args {
		text, is := texts[arg]
		if !is {
			text = "null"
		}
		hasText = hasText || is
		numbers, words = append(numbers, fmt.Sprint(arg)), append(words, text)
	}
	list := "[" + strings.Join(numbers, ",") + "]"
	if hasText {
		list += `,"text":[` + strings.Join(words, ",") + "]"
	}
	return list
}

// The value as JSON has a text, at most 1,000 characters of it, since a line may not be long.
func quoted(value any) string {
	letters := []rune(fmt.Sprint(value))
	if len(letters) > 1000 {
		letters = letters[:1000]
	}
	text, err := json.Marshal(string(letters))
	if err != nil {
		return "null"
	}
	return string(text)
}

// A Process is what one goroutine records. No other goroutine uses it.
type Process struct {
	recorder    *Recorder
	number      uint32
	pending     *operation // the operation of the pending call
	object      int        // the object of the last call
	first, last *chunk
	at          int // in the last chunk
	length      atomic.Int64
}

// Call tells that a call of this operation begins now, with these arguments.
func (p *Process) Call(object, op string, args Args) {
	r := p.recorder
	if p.pending != nil {
		require(false, "process %d has a pending call", p.number)
	}
	if p.object >= len(r.objects) || r.objects[p.object].name != object {
		at := r.find(object)
		require(at >= 0, "unknown object: %s", object)
		p.object = at
	}
	of, operations := 0, r.objects[p.object].operations
	for of < len(operations) && operations[of].name != op {
		of++
	}
	if of == len(operations) {
		require(false, "%s has no operation %s", r.objects[p.object].kind, op)
	}
	if len(args) != operations[of].args {
		require(false, "wrong number of arguments: %s", op)
	}
	var values [2]int64
	for i, arg := range args {
		values[i] = r.Value(arg)
	}
	event := p.room(called)
	event.operation, event.values = uint8(of), values
	p.pending = &operations[of]
	p.show()
	atomic.StoreUint64(&event.instant, p.now())
}

// Ret tells what the pending call has answered: OK, a bool, nil, a whole number or another value.
func (p *Process) Ret(reply any) {
	instant := p.now()
	if p.pending != nil && reply == nil && p.pending.answersOK {
		reply = OK
	}
	if _, isOK := reply.(okay); p.pending != nil && isOK != p.pending.answersOK {
		require(isOK, "%s answers ok alone", p.pending.name)
		require(!isOK, "%s does not answer ok", p.pending.name)
	}
	switch it := reply.(type) {
	case okay:
		p.end(instant, ok, 0)
	case nil:
		p.end(instant, empty, 0)
	case bool:
		p.end(instant, flag, map[bool]int64{true: 1}[it])
	default:
		p.end(instant, number, p.recorder.Value(it))
	}
}

// Fail tells that the pending call was not done and never will be.
func (p *Process) Fail() { p.end(p.now(), failed, 0) }

// Info tells that nobody knows whether the pending call was done. The goroutine goes on as a new process.
func (p *Process) Info() {
	p.end(p.now(), unknown, 0)
	p.recorder.lock.Lock()
	defer p.recorder.lock.Unlock()
	p.number = p.recorder.nextNumber()
}

// Record records the call that the operation makes, and returns its error. The errors behind it say that the call was not done.
func (p *Process) Record(object, op string, args Args, operation func() (reply any, err error), fails ...error) error {
	p.Call(object, op, args)
	defer func() {
		if p.pending != nil { // the operation, or what it answered, made a panic
			p.Info()
		}
	}()
	reply, err := operation()
	if err == nil {
		p.Ret(reply)
		return nil
	}
	for _, it := range fails {
		if errors.Is(err, it) {
			p.Fail()
			return err
		}
	}
	p.Info()
	return err
}

func (p *Process) now() uint64 { return p.recorder.instants.Add(1) - 1 }

// The place of the next event, with what all events have.
func (p *Process) room(it what) *event {
	if p.at == room {
		made := newChunk()
		p.last.next.Store(made)
		p.last, p.at = made, 0
	}
	event := &p.last.events[p.at]
	event.process, event.object, event.what = p.number, uint16(p.object), it
	return event
}

// Shows the event that was filled to a writer.
func (p *Process) show() {
	p.at++
	p.length.Add(1)
}

func (p *Process) end(instant uint64, it what, value int64) {
	if p.pending == nil {
		require(false, "process %d has no pending call", p.number)
	}
	event := p.room(it)
	event.instant = instant
	event.values[0] = value
	p.pending = nil
	p.show()
}

// The place of an object, or -1.
func (r *Recorder) find(name string) int {
	for at := range r.objects {
		if r.objects[at].name == name {
			return at
		}
	}
	return -1
}

// Under the lock: a number that no process has or had.
func (r *Recorder) nextNumber() uint32 {
	require(r.greatest < 1<<32-1, "no number is left for a process")
	r.takeNumber(r.greatest + 1)
	return r.greatest
}

func (r *Recorder) takeNumber(number uint32) {
	r.numbers[number] = true
	if number > r.greatest {
		r.greatest = number
	}
}

func (r *Recorder) addProcess(number uint32) *Process {
	first := newChunk()
	made := &Process{recorder: r, number: number, first: first, last: first}
	r.processes = append(r.processes, made)
	return made
}

// What can be compared is a value; a slice or a map is not, wherever it stands in it.
func requireValue(value reflect.Value) {
	switch value.Kind() {
	case reflect.Slice:
		require(false, "no value: a list")
	case reflect.Map:
		require(false, "no value: a map")
	case reflect.Func:
		require(false, "no value: a function")
	case reflect.Interface:
		requireValue(value.Elem())
	case reflect.Array:
		for i := 0; i < value.Len(); i++ {
			requireValue(value.Index(i))
		}
	case reflect.Struct:
		for i := 0; i < value.NumField(); i++ {
			requireValue(value.Field(i))
		}
	}
}

func require(holds bool, otherwise string, words ...any) {
	if !holds {
		panic(fmt.Sprintf(otherwise, words...))
	}
}

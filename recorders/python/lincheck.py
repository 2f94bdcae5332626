"""Records what threads call on objects, as a history for lincheck. Copy this file; it needs the standard library alone (3.8).

    recorder = Recorder()
    recorder.object("q", "queue")                          # before the first process
    me = recorder.process()                                # one for each thread
    me.record("q", "enq", [7], lambda: items.put(7))       # one call: its instants and its reply
    item = me.record("q", "deq", [], items.take)
    recorder.write(sys.stdout)                             # at any time

`record` returns what the operation returned. That is its reply: True or False, a whole number or any other value; None says
that there was none, or of an operation that answers ok that it is done. After an exception nobody knows whether the call was
done (`info`), unless it is one of `fails`, the exceptions that say that it was not (`fail`). The exception goes on.
`me.call("q", "enq", [7])`, then `ret`, `fail` or `info`, do the same in two lines.

After `info` the thread goes on as a new process, with a number of its own. A value that is no whole number, as an argument or a
reply, is recorded by a whole number that stands for it: equal values, equal numbers (`value`). A list or another value that may
change is none. What is given wrongly (a name, a kind, an operation, a value, a call while one is pending) raises `ValueError` or
`RuntimeError`.

`write` may be called while threads run or hang: calls that have not returned are pending. `write_at_end` writes the history when
the program ends, or by SIGHUP, SIGINT or SIGTERM. Python runs nothing when the interpreter itself crashes, or in `os._exit`.
"""
import atexit
import itertools
import json
import numbers
import os
import re
import signal
import stat
import sys
import threading

OK = type("Ok", (), {"__repr__": lambda _: "OK"})()
"""The reply of an operation that answers nothing but that it is done."""

KINDS = {  # of each operation the number of arguments, and whether it answers ok
    "register": {"write": (1, True), "read": (0, False), "cas": (2, False)},
    "counter": {"add": (1, True), "get": (0, False)},
    "queue": {"enq": (1, True), "deq": (0, False)},
    "stack": {"push": (1, True), "pop": (0, False)},
    "set": {"add": (1, False), "remove": (1, False), "contains": (1, False)},
    "mutex": {"lock": (0, True), "unlock": (0, True), "try_lock": (0, False)},
    "map": {"put": (2, True), "get": (1, False), "delete": (1, False)},
}
WITH_START = ("register", "counter")
FIRST_VALUE = 9_000_000_000_000_000_001  # few tests use numbers as large
MOST = 2**63  # a whole number has 64 bits


class Recorder:
    """A history that is being recorded."""

    def __init__(self):
        if not getattr(sys, "_is_gil_enabled", lambda: True)():
            raise RuntimeError("the instants are taken under the lock of the interpreter, which is off")
        self._instants = itertools.count(1)  # the interpreter takes one step for each number
        self._objects, self._operations, self._processes, self._numbers, self._values = {}, {}, [], set(), {}
        self._lock = threading.Lock()  # of the numbers and of the values; events are kept without it

    def object(self, name, kind, start=0):
        """Declares an object, before the first process. A register and a counter may start with another number than 0."""
        _require(re.fullmatch(r"[A-Za-z0-9_./:-]{1,64}", name), f"no name of an object: {name}")
        _require(kind in KINDS, f"no kind of an object: {kind}")
        _require(start == 0 or kind in WITH_START, f"{kind} has no start")
        _require(not self._processes, "objects are declared before the first process", RuntimeError)
        _require(name not in self._objects, f"object is declared already: {name}")
        _require(len(self._objects) < 1024, "more than 1024 objects", RuntimeError)
        self._objects[name], self._operations[name] = (kind, start), KINDS[kind]

    def process(self, number=None):
        """A process for one thread. Its number, which no process has or had, is one more than the greatest until now, where none
        is given."""
        made = Process(self, self._next_number() if number is None else self._take_number(number))
        self._processes.append(made)
        return made

    def value(self, value):
        """The whole number that stands for a value: a whole number itself, and equal numbers for equal values."""
        if type(value) is int and -MOST <= value < MOST:
            return value
        if isinstance(value, numbers.Integral) and not isinstance(value, bool) and -MOST <= value < MOST:
            return int(value)
        try:
            hash(value)
        except TypeError:  # it may change, so it may be equal to another now and not later
            raise ValueError(f"no value: a {'map' if isinstance(value, dict) else type(value).__name__}") from None
        with self._lock:
            return self._values.setdefault((type(value), value), FIRST_VALUE + len(self._values))

    def write(self, to):
        """Writes what has been recorded. Calls that have not returned are pending."""
        # A call stands in its list before its operation begins, so those that have begun by this instant are seen.
        cut = next(self._instants)
        events = [event for process in list(self._processes) for event in list(process._events) if event[0] < cut]
        events.sort(key=lambda event: event[0])
        texts = {number: _text(value) for (_, value), number in list(self._values.items())}
        declared = [
            {"event": "object", "object": name, "kind": kind, **({"start": start} if start else {})}
            for name, (kind, start) in self._objects.items()
        ]
        for line in [{"format": 2}, *declared, *(_line(event, texts) for event in events)]:
            to.write(json.dumps(line, separators=(",", ":")) + "\n")
        to.flush()

    def write_at_end(self, path):
        """Writes the history to this file when the program ends. A file is removed until then; a device, a pipe or a link is
        not. Called by the main thread."""
        once = threading.Lock()

        def write():
            is_first = once.acquire(blocking=False)
            if is_first:
                with open(path, "w") as to:
                    self.write(to)
            return is_first

        def write_and_end(number, _):
            if write():  # else the code that this handler interrupts is writing, and ends the program
                signal.signal(number, signal.SIG_DFL)
                os.kill(os.getpid(), number)

        if os.path.lexists(path) and stat.S_ISREG(os.lstat(path).st_mode):
            os.remove(path)
        atexit.register(write)
        for name in ("SIGHUP", "SIGINT", "SIGTERM"):
            number = getattr(signal, name, None)
            if number and signal.getsignal(number) in (signal.SIG_DFL, signal.default_int_handler):
                signal.signal(number, write_and_end)

    def _next_number(self):
        with self._lock:
            number = max(self._numbers, default=0) + 1
            self._numbers.add(number)
        return number

    def _take_number(self, number):
        _require(0 <= number < 1 << 32, f"no number of a process: {number}")
        with self._lock:
            _require(number not in self._numbers, f"process {number} is there already")
            self._numbers.add(number)
        return number


class Process:
    """What one thread records. No other thread uses it."""

    def __init__(self, recorder, number):
        self._recorder, self._number, self._instants, self._operations = recorder, number, recorder._instants, recorder._operations
        self._pending, self._events = None, []  # each event: its instant, its process, its object, what it is, and its values

    def call(self, name, op, args=()):
        """A call of this operation begins now, with this list of arguments."""
        if self._pending:
            raise RuntimeError(f"process {self._number} has a pending call")
        operations = self._operations.get(name)
        if not operations:
            raise ValueError(f"unknown object: {name}")
        if op not in operations:
            raise ValueError(f"{self._recorder._objects[name][0]} has no operation {op}")
        count, answers_ok = operations[op]
        if not isinstance(args, (list, tuple)):
            raise ValueError(f"no list of arguments: {args!r}")
        if len(args) != count:
            raise ValueError(f"wrong number of arguments: {op}")
        if args:
            args = tuple(map(self._recorder.value, args))
        self._pending = name, op, answers_ok
        self._events.append((next(self._instants), self._number, name, "call", op, args))

    def ret(self, reply=None):
        """The pending call has answered: OK, True or False, None, a whole number or another value."""
        instant = next(self._instants)
        if self._pending:
            _, op, answers_ok = self._pending
            if answers_ok and reply is not None and reply is not OK:
                raise ValueError(f"{op} answers ok alone")
            if answers_ok:
                return self._end(instant, "return", "ok")
            if reply is OK:
                raise ValueError(f"{op} does not answer ok")
        is_plain = reply is None or reply is True or reply is False
        self._end(instant, "return", reply if is_plain else self._recorder.value(reply))

    def fail(self):
        """The pending call was not done and never will be."""
        self._end(next(self._instants), "fail")

    def info(self):
        """Nobody knows whether the pending call was done. The thread goes on as a new process."""
        self._end(next(self._instants), "info")
        self._number = self._recorder._next_number()

    def record(self, name, op, args, operation, fails=()):
        """Records the call that the operation makes, and returns what it returns."""
        self.call(name, op, args)
        try:
            reply = operation()
        except fails:
            self.fail()
            raise
        except BaseException:
            self.info()
            raise
        try:
            self.ret(reply)
        finally:
            if self._pending:  # what it returned is no reply
                self.info()
        return reply

    def _end(self, instant, event, reply=None):
        if not self._pending:
            raise RuntimeError(f"process {self._number} has no pending call")
        self._events.append((instant, self._number, self._pending[0], event, reply, None))
        self._pending = None


def _require(holds, otherwise, error=ValueError):
    if not holds:
        raise error(otherwise)


def _text(value):
    """The value as a text, at most 1,000 characters of it, since a line may not be long, and without halves of characters."""
    text = value if isinstance(value, str) else repr(value)
    return text[:1000].encode("utf-8", "replace").decode()


def _line(event, texts):
    """The line of an event, with the values that its numbers stand for."""
    _, process, name, what, told, args = event
    line = {"event": what, "process": process, "object": name}
    if what == "call":
        line.update(op=told, args=args)
        if any(arg in texts for arg in args):
            line["text"] = [texts.get(arg) for arg in args]
    elif what == "return":
        line["result"] = told
        if not isinstance(told, (bool, str)) and told in texts:
            line["text"] = texts[told]
    return line

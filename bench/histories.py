#!/usr/bin/env python3
"""Writes the histories that bench/run.py times.

    bench/histories.py              lists the families and their sizes
    bench/histories.py FAMILY SIZE  writes one history

Those that are simulated are linearizable: each call takes effect at one moment between its call and its return. They
come from a fixed seed, so that they are the same each time.
"""
import copy
import random
import sys
from typing import Callable, Iterable, NamedTuple

DECLARED = '{"event":"object","object":"%s","kind":"%s"%s}\n'
CALL = '{"event":"call","process":%d,"object":"%s","op":"%s"%s%s}\n'
RETURN = '{"event":"return","process":%d,"object":"%s","result":%s%s}\n'
OKAY = '"ok"'
LINE = 65536
INPUT = 67108864
FAULTY = "[]\n"
SEED = 1
NEVER = -1  # a value that nobody writes
IMPOSSIBLE = 1_000_000  # a process that makes one impossible read


def declared(name, kind="register", more=""):
    return DECLARED % (name, kind, more)


def call(process, name, op, value=None, more=""):
    values = [] if value is None else value if isinstance(value, tuple) else [value]
    return CALL % (process, name, op, ',"args":[%s]' % ",".join(map(str, values)) if values else "", more)


def returned(process, name, reply, more=""):
    return RETURN % (process, name, reply, more)


def impossible_read(name):
    yield call(IMPOSSIBLE, name, "read")
    yield returned(IMPOSSIBLE, name, NEVER)


# ---- simulated objects: each chooses what to call next, and tells what an operation replies


class Register:
    kind = "register"

    def __init__(self):
        self.value = 0

    def choose(self, chance, number):
        return ("write", number) if chance.random() < 0.5 else ("read", None)

    def reply(self, op, value):
        if op == "write":
            self.value = value
            return OKAY
        return self.value


class Buffer:
    """A queue or a stack that is kept short: how many orders of its items must be tried grows fast with its length."""

    SHORT = 5

    def __init__(self):
        self.items = []

    def choose(self, chance, number):
        more = 0.5 if len(self.items) < self.SHORT else 0.2
        return (self.put, number) if chance.random() < more else (self.take, None)

    def reply(self, op, value):
        if op == self.put:
            self.items.append(value)
            return OKAY
        return self.items.pop(self.end) if self.items else "null"


class Queue(Buffer):
    kind, put, take, end = "queue", "enq", "deq", 0


class Stack(Buffer):
    kind, put, take, end = "stack", "push", "pop", -1


class Filled:
    """A buffer that is filled up to so many items and then emptied, again and again."""

    def __init__(self, most):
        super().__init__()
        self.most, self.is_filling = most, True

    def choose(self, chance, number):
        if len(self.items) >= self.most:
            self.is_filling = False
        elif not self.items:
            self.is_filling = True
        return (self.put, number) if self.is_filling else (self.take, None)


class FilledQueue(Filled, Queue):
    pass


class RepeatedQueue(FilledQueue):
    """A queue of numbers of jobs, each of which goes in again and again."""

    def __init__(self, values, most=20):
        super().__init__(most)
        self.values = values

    def choose(self, chance, number):
        op, value = super().choose(chance, number)
        return (op, value if value is None else chance.randrange(self.values))


class FilledStack(Filled, Stack):
    pass


def even(chance, keys):
    """One of so many keys, each as often as another."""
    return chance.randrange(keys)


def skewed(chance, keys):
    """One of so many keys: the k-th about as often as the first divided by k."""
    return int(keys ** chance.random()) % keys


class Map:
    """A map of some keys."""

    kind = "map"

    def __init__(self, keys=16, draw=even):
        self.keys, self.draw, self.values = keys, draw, {}

    def choose(self, chance, number):
        key = self.draw(chance, self.keys)
        op = chance.choices(["put", "get", "delete"], [4, 5, 1])[0]
        return (op, (key, number)) if op == "put" else (op, key)

    def reply(self, op, value):
        if op == "put":
            self.values[value[0]] = value[1]
            return OKAY
        if op == "get":
            return self.values.get(value, "null")
        return "true" if self.values.pop(value, None) is not None else "false"


class ForgetfulMap(Map):
    """A map whose gets, so many from the middle of the history on, find what their key had long ago. Its values are put once
    each, or are the numbers below `values`."""

    LONG = 200  # calls

    def __init__(self, keys, calls, stale, values=None):
        super().__init__(keys)
        self.middle, self.stale, self.below, self.calls, self.old = calls // 2, stale, values, 0, {}

    def choose(self, chance, number):
        op, value = super().choose(chance, number)
        return (op, (value[0], number % self.below)) if op == "put" and self.below else (op, value)

    def reply(self, op, value):
        self.calls += 1
        if self.calls == self.middle - self.LONG:
            self.old = dict(self.values)
        if op == "get" and self.stale and self.calls >= self.middle and self.old.get(value) != self.values.get(value):
            self.stale -= 1
            return self.old.get(value, "null")
        return super().reply(op, value)


class ForgetfulQueue(FilledQueue):
    """A queue that is filled and emptied, and that forgets so many of its first items in the middle of the history, as soon as
    it has them."""

    def __init__(self, most, calls, forgotten):
        super().__init__(most)
        self.middle, self.forgotten, self.calls = calls // 2, forgotten, 0

    def reply(self, op, value):
        self.calls += 1
        if self.forgotten and self.calls >= self.middle and len(self.items) > self.forgotten:
            self.items, self.forgotten = self.items[self.forgotten :], 0
        return super().reply(op, value)


class Set:
    """A set of some items."""

    kind = "set"

    def __init__(self, keys, draw=even):
        self.keys, self.draw, self.items = keys, draw, set()

    def choose(self, chance, number):
        return chance.choices(["add", "contains", "remove"], [4, 4, 2])[0], self.draw(chance, self.keys)

    def reply(self, op, value):
        was = value in self.items
        if op == "add":
            self.items.add(value)
        if op == "remove":
            self.items.discard(value)
        return "true" if was != (op == "add") else "false"


class Exchanged(Register):
    """A register of which one call in five is a `cas` from what it holds as the call is made."""

    take = "cas"

    def choose(self, chance, number):
        return ("cas", (self.value, number)) if chance.random() < 0.2 else super().choose(chance, number)

    def reply(self, op, value):
        if op != "cas":
            return super().reply(op, value)
        found = self.value == value[0]
        self.value = value[1] if found else self.value
        return "true" if found else "false"


class Drawn(Register):
    """A register whose values are drawn from so many numbers."""

    def __init__(self, numbers):
        super().__init__()
        self.numbers = numbers

    def choose(self, chance, number):
        op, value = super().choose(chance, number)
        return op, value if value is None else chance.randrange(self.numbers)


class Repeating(Register):
    """A register of which so many values are written twice, the second time at random among the calls that follow."""

    def __init__(self, twice, calls):
        super().__init__()
        self.again, self.every = [], max(1, calls // (2 * twice))

    def choose(self, chance, number):
        op, value = super().choose(chance, number)
        if value is None:
            return op, value
        if number % self.every == 0:
            self.again.append(value)
        elif self.again and chance.random() < 2 / self.every:
            value = self.again.pop(0)
        return op, value


class Swapping(Register):
    """A register that clients read, and then change by a `cas` to a fresh number. From the middle of the history on it loses one such
    change, if it is to."""

    take = "cas"

    def __init__(self, calls, loses):
        super().__init__()
        self.calls, self.middle, self.loses, self.seen = 0, calls // 2, loses, 0

    def choose(self, chance, number):
        return ("cas", (self.seen, number)) if chance.random() < 0.5 else ("read", None)

    def reply(self, op, value):
        self.calls += 1
        if op == "read":
            self.seen = self.value
            return self.value
        if self.value != value[0]:
            return "false"
        if self.loses and self.calls >= self.middle:
            self.loses = False
        else:
            self.value = self.seen = value[1]
        return "true"


class Counter:
    """A counter, of whose calls three in ten are a `get`, and the others add 1."""

    kind, take = "counter", "add"

    def __init__(self):
        self.value = 0

    def choose(self, chance, number):
        return ("get", None) if chance.random() < 0.3 else ("add", 1)

    def reply(self, op, value):
        if op == "add":
            self.value += value
            return OKAY
        return self.value


class Adding(Counter):
    """The same, but each `add` is of a number from 1 to 100."""

    def choose(self, chance, number):
        return ("get", None) if chance.random() < 0.3 else ("add", chance.randrange(1, 101))


class Semaphore(Counter):
    """The same, but each `add` is of 1 or -1, as the permits of a semaphore are given back and taken: there are 8 of them."""

    permits = 8

    def choose(self, chance, number):
        if chance.random() < 0.3:
            return "get", None
        if 0 < self.value < self.permits:
            return "add", chance.choice([-1, 1])
        return "add", 1 if self.value <= 0 else -1


class ForgetfulCounter(Adding):
    """The same, which forgets one `add` at nine tenths of the history."""

    def __init__(self, calls):
        super().__init__()
        self.late, self.calls = calls * 9 // 10, 0

    def reply(self, op, value):
        self.calls += 1
        if op == "add" and self.calls >= self.late:
            self.late = 2 * self.calls + 1_000_000
            return OKAY
        return super().reply(op, value)


class Members(Set):
    """A set of a few items that clients join and leave."""

    def __init__(self):
        super().__init__(5)


class ThreeKeys(Map):
    """A map of three keys."""

    def __init__(self):
        super().__init__(3)


class Pool(Queue):
    """A queue of so many items, each of which goes back in after it was taken out."""

    def __init__(self, count):
        super().__init__()
        self.left, self.out = list(range(count)), []

    def choose(self, chance, number):
        if self.left:
            return self.put, self.left.pop()
        if self.out and chance.random() < 0.5:
            return self.put, self.out.pop(chance.randrange(len(self.out)))
        return self.take, None

    def reply(self, op, value):
        reply = super().reply(op, value)
        if op == self.take and reply != "null":
            self.out.append(reply)
        return reply


class Parted:
    """An object of which there are two replicas for so many calls from the middle on, one for the even processes and one for the
    odd ones. Then the first is what all see."""

    APART = 100  # calls

    def __init__(self, model, calls):
        self.all, self.other, self.middle, self.calls, self.process = model, None, calls // 2, 0, 0

    def choose(self, chance, number):
        return self.all.choose(chance, number)

    def reply(self, op, value):
        self.calls += 1
        if self.calls == self.middle:
            self.other = copy.deepcopy(self.all)
        if self.calls == self.middle + self.APART:
            self.other = None
        one = self.other if self.other and self.process % 2 else self.all
        return one.reply(op, value)


class Event(NamedTuple):
    process: int
    op: str
    value: int | tuple[int, int] | None  # the argument, or both
    reply: object  # None at a call event


def simulated(model, processes, calls, stops=0):
    """The events of so many calls of so many processes, of which a random one does its next step each time: it calls,
    its call takes effect, or its call returns. So many of the processes stop within a call that takes an item, at even
    distances; of every second such call the effect is left out."""
    chance = random.Random(SEED)
    events, called, done, made = [], {}, {}, 0
    running = list(range(processes))
    while made < calls or called or done:
        process = model.process = chance.choice(running)
        stopped = processes - len(running)
        if process in called:
            op, value = called.pop(process)
            if stopped < stops and op == model.take and made >= calls * (stopped + 1) // (stops + 2):
                running.remove(process)
                if stopped % 2 == 0:
                    model.reply(op, value)
            else:
                done[process] = Event(process, op, value, model.reply(op, value))
        elif process in done:
            events.append(done.pop(process))
        elif made < calls:
            made += 1
            called[process] = model.choose(chance, made)
            events.append(Event(process, *called[process], None))
    return events


class FewValues:
    """A register with `cas` and values 0 to 4."""

    kind = "register"
    values = 5

    def __init__(self):
        self.value = 0

    def choose(self, chance, number):
        op = chance.choice(["write", "read", "cas"])
        if op == "read":
            return op, None
        written = chance.randrange(self.values)
        return (op, written) if op == "write" else (op, (chance.randrange(self.values), written))

    def reply(self, op, value):
        if op == "read":
            return self.value
        if op == "write":
            self.value = value
            return OKAY
        was_there = self.value == value[0]
        if was_there:
            self.value = value[1]
        return "true" if was_there else "false"


class FewPairs:
    """A map of few keys and values."""

    kind = "map"

    def __init__(self, keys):
        self.keys, self.pairs = keys, {}

    def choose(self, chance, number):
        op, key = chance.choice(["put", "put", "put", "put", "put", "get", "get", "get", "get", "delete"]), chance.randrange(self.keys)
        return op, (key, chance.randrange(FewValues.values)) if op == "put" else key

    def reply(self, op, value):
        if op == "put":
            self.pairs[value[0]] = value[1]
            return OKAY
        if op == "get":
            return self.pairs.get(value, "null")
        return "true" if self.pairs.pop(value, None) is not None else "false"


def timing_out(model, processes, calls, share, seed=SEED):
    """The events of so many calls, as of `simulated`, of which so many in a hundred never return: their clients go on as new ones.
    Such a call takes effect at once, later or never, each as often as the others."""
    chance = random.Random(seed)
    events, called, done, late, made = [], {}, {}, [], 0
    clients, fresh = list(range(processes)), processes
    while made < calls or called or done:
        if late and chance.random() < 0.05:
            model.reply(*late.pop(chance.randrange(len(late))))
        place = chance.randrange(processes)
        process = clients[place]
        if process in called:
            op, value = called.pop(process)
            if chance.random() * 100 >= share:
                done[process] = Event(process, op, value, model.reply(op, value))
                continue
            clients[place], fresh = fresh, fresh + 1
            when = chance.choice(["at once", "later", "never"])
            if when == "at once":
                model.reply(op, value)
            elif when == "later":
                late.append((op, value))
        elif process in done:
            events.append(done.pop(process))
        elif made < calls:
            made += 1
            called[process] = model.choose(chance, made)
            events.append(Event(process, *called[process], None))
    return events


def with_stale_reads(events, count, values, seed=SEED):
    """So many values read in the second half, at even distances, each replaced by another one."""
    chance = random.Random(seed)
    places = [place for place, event in enumerate(events) if event.op in ("read", "get") and isinstance(event.reply, int)]
    places = places[len(places) // 2 :]
    for number in range(count):
        place = places[len(places) * (2 * number + 1) // (2 * count)]
        events[place] = events[place]._replace(reply=(events[place].reply + chance.randrange(1, values)) % values)
    return events


def with_swapped_results(events, op):
    """Two results of the operation, at nine tenths of the history and 20 later, in each other's place."""
    places = [place for place, event in enumerate(events) if event.op == op and isinstance(event.reply, int)]
    first = len(places) * 9 // 10 - 20
    one, other = places[first], places[first + 20]
    replies = events[one].reply, events[other].reply
    events[other], events[one] = events[other]._replace(reply=replies[0]), events[one]._replace(reply=replies[1])
    return events


def spans(events):
    """Of each call that returned its operation and value, the places of its call and its return, and its reply, in the order of the returns."""
    called, of_calls = {}, []
    for place, event in enumerate(events):
        if event.reply is None:
            called[event.process] = place
        else:
            of_calls.append((event.op, event.value, called[event.process], place, event.reply))
    return of_calls


def with_wrong_turn(events, model):
    """Two results in each other's place, such that there is no order whatever calls that never returned did: one item was put in before
    the other, and then a queue gives out the other one first, or a stack the one that lies below it. The first of the two returned behind
    nine tenths of the history, or as late before as there are such; where there are none, one item comes out twice."""
    put = {value: (called, returned) for op, value, called, returned, _ in spans(events) if op == model.put}
    takes = [call for call in spans(events) if call[0] == model.take and call[4] in put]
    late = len(takes) * 9 // 10
    for number in [*range(late, len(takes)), *reversed(range(late))]:
        _, _, called, returned, first = takes[number]
        for _, _, later_called, later_returned, second in takes[number + 1 :]:
            low, high = (first, second) if model.kind == "queue" else (second, first)
            is_put_in_turn = put[low][1] < put[high][0] and (model.kind == "queue" or put[high][1] < called)
            if returned < later_called and is_put_in_turn:
                changed = list(events)
                changed[returned], changed[later_returned] = events[returned]._replace(reply=second), events[later_returned]._replace(reply=first)
                return changed
    return with_item_taken_twice(events, model.take)


def with_item_taken_twice(events, op):
    """A result of the operation, at nine tenths of the history, in the place of one 5 later."""
    places = [place for place, event in enumerate(events) if event.op == op and isinstance(event.reply, int)]
    first = len(places) * 9 // 10 - 20
    one, other = places[first], places[first + 5]
    events[other] = events[other]._replace(reply=events[one].reply)
    return events


def with_pairs_swapped(events, op, count):
    """So many pairs of results of the operation, from the middle on, each in the other's place."""
    places = [place for place, event in enumerate(events) if event.op == op and isinstance(event.reply, int)]
    first = len(places) // 2
    for number in range(count):
        one, other = places[first + 24 * number], places[first + 24 * number + 20]
        replies = events[one].reply, events[other].reply
        events[other], events[one] = events[other]._replace(reply=replies[0]), events[one]._replace(reply=replies[1])
    return events


def with_items_taken_twice(events, op, count):
    """So many results of the operation, from the middle on, in the place of one 20 later."""
    places = [place for place, event in enumerate(events) if event.op == op and isinstance(event.reply, int)]
    first = len(places) // 2
    for number in range(count):
        one, other = places[first + 4 * number], places[first + 4 * number + 20]
        events[other] = events[other]._replace(reply=events[one].reply)
    return events


def with_impossible_reply(events, op, tenths):
    """The operation's result that stands after so many tenths of them, replaced by one that is impossible."""
    places = [place for place, event in enumerate(events) if event.op == op and event.reply is not None]
    place = places[min(len(places) * tenths // 10, len(places) - 1)]
    events[place] = events[place]._replace(reply=NEVER)
    return events


def with_old_reply(events, op):
    """A result of the operation, at nine tenths of the history, replaced by that of one 20 before."""
    places = [place for place, event in enumerate(events) if event.op == op and isinstance(event.reply, int)]
    late = len(places) * 9 // 10
    events[places[late]] = events[places[late]]._replace(reply=events[places[late - 20]].reply)
    return events


def with_results_in_turn(events, op, count):
    """So many results of the operation in the middle, each in the place of the next."""
    places = [place for place, event in enumerate(events) if event.op == op and isinstance(event.reply, int)]
    first = len(places) // 2
    chosen = places[first : first + 8 * count : 8]
    replies = [events[place].reply for place in chosen]
    for place, reply in zip(chosen, [*replies[1:], replies[0]]):
        events[place] = events[place]._replace(reply=reply)
    return events


def lines(name, kind, events):
    yield declared(name, kind)
    for event in events:
        if event.reply is None:
            yield call(event.process, name, event.op, event.value)
        else:
            yield returned(event.process, name, event.reply)


# ---- families


def concurrent(writes):
    yield declared("x")
    for process in range(writes):
        yield call(process, "x", "write", process)
    for process in range(writes):
        yield returned(process, "x", OKAY)
    yield from impossible_read("x")


def additions(count):
    """So many additions at once, of numbers that no two sums have in common, and a get beside them of what none adds up to."""
    yield declared("c", "counter")
    yield call(0, "c", "get")
    for process in range(1, count + 1):
        yield call(process, "c", "add", 2**process)
    for process in range(1, count + 1):
        yield returned(process, "c", OKAY)
    yield returned(0, "c", 2**count - 1)


def equal_additions(count):
    """So many additions of 1 at once, and a get beside them that returned one more than they add."""
    yield declared("c", "counter")
    yield call(0, "c", "get")
    for process in range(1, count + 1):
        yield call(process, "c", "add", 1)
    for process in range(1, count + 1):
        yield returned(process, "c", OKAY)
    yield returned(0, "c", count + 1)


def shared_additions(count):
    """So many numbers, each added at once by two clients and by a third that stops within its add, and a get beside them of
    what none adds up to."""
    numbers = [8**place for place in range(count)]
    adds = [*numbers, *numbers]
    yield declared("c", "counter")
    yield call(0, "c", "get")
    for process, number in enumerate([*adds, *numbers], 1):
        yield call(process, "c", "add", number)
    for process in range(1, len(adds) + 1):
        yield returned(process, "c", OKAY)
    yield returned(0, "c", 7 * 8**count)


def pending_additions(count):
    """So many clients that stop within an addition of 4, two more within one of 5, and a get of 10."""
    yield declared("c", "counter")
    for process, number in enumerate([4] * count + [5, 5]):
        yield call(process, "c", "add", number)
    yield call(count + 2, "c", "get")
    yield returned(count + 2, "c", 10)


def pending_gets(count):
    """So many clients that stop within a get, then two additions of 1 beside one of -1 that never returned, and a get of 3."""
    yield declared("c", "counter")
    for process in range(count):
        yield call(process, "c", "get")
    for process, number in enumerate([-1, 1, 1], count):
        yield call(process, "c", "add", number)
    yield call(count + 3, "c", "get")
    for process in (count + 2, count + 1):
        yield returned(process, "c", OKAY)
    yield returned(count + 3, "c", 3)


# Numbers, and a sum of some of them, each at most three times, to which few ways lead.
SUMS = {3: ([29, 36, 37], 147), 4: ([38, 7, 25, 21], 152), 5: ([8, 35, 5, 26, 31], 286)}


def shared_sums(count):
    """So many numbers, each added at once by two clients and by a third that stops within its add, and a get beside them of a
    sum of some."""
    numbers, wanted = SUMS[count]
    adds = [number for number in numbers for _ in range(3)]
    yield declared("c", "counter")
    yield call(0, "c", "get")
    for process, number in enumerate(adds, 1):
        yield call(process, "c", "add", number)
    yield returned(0, "c", wanted)
    for process in range(1, len(adds) + 1):
        if process % 3:
            yield returned(process, "c", OKAY)


def locking(processes, calls, tries, share, broken=None, seed=SEED):
    """The events of so many calls on a mutex, which each process takes and gives back, again and again. So many in a hundred of the
    calls that take it are `try_lock`s. So many in a hundred of all calls never return: their clients go on as new ones. Such an
    `unlock` takes effect, any other such call does not. After the tenth `broken` of the calls one `lock` is granted while another
    process holds the mutex for sure."""
    chance = random.Random(seed)
    events, called, done, holders, made = [], {}, {}, [], 0
    clients, fresh = list(range(processes)), processes
    late = calls + processes if broken is None else calls * broken // 10
    while made < calls or called or done:
        place = chance.randrange(len(clients))
        process = clients[place]
        if process in called:
            op, stops = called[process]
            if stops:
                clients[place], fresh = fresh, fresh + 1
                if op == "unlock":
                    holders.remove(process)
            elif op == "unlock":
                holders.remove(process)
                done[process] = Event(process, op, None, OKAY)
            elif not holders:
                holders.append(process)
                done[process] = Event(process, op, None, OKAY if op == "lock" else "true")
            elif op == "try_lock":
                done[process] = Event(process, op, None, "false")
            elif made > late and holders[0] not in called and holders[0] not in done:
                late = calls + processes
                holders.append(process)
                events.append(Event(process, op, None, OKAY))
            else:
                continue
            del called[process]
        elif process in done:
            events.append(done.pop(process))
        elif made < calls or process in holders:
            made += 1
            op = "unlock" if process in holders else "try_lock" if chance.random() * 100 < tries else "lock"
            called[process] = op, chance.random() * 100 < share
            events.append(Event(process, op, None, None))
    return events


def mutex(processes, tries=0, share=0, broken=None):
    """A mutex of so many processes, as of `locking`."""
    return lambda calls: lines("m", "mutex", locking(processes, calls, tries, share, broken))


def tries(count):
    """So many tries at once to take a mutex that is held, and an unlock by one that does not hold it."""
    yield declared("m", "mutex")
    yield call(0, "m", "lock")
    yield returned(0, "m", OKAY)
    for process in range(1, count + 1):
        yield call(process, "m", "try_lock")
    for process in range(1, count + 1):
        yield returned(process, "m", "false")
    yield call(1, "m", "unlock")
    yield returned(1, "m", OKAY)


def free_tries(count):
    """So many tries at once to take a mutex that nobody holds, each answered no."""
    yield declared("m", "mutex")
    for process in range(1, count + 1):
        yield call(process, "m", "try_lock")
    for process in range(1, count + 1):
        yield returned(process, "m", "false")


def rounds_and_tries(tries):
    """So many calls of one process that takes a mutex and gives it back, again and again, and then so many tries at once that were
    answered no."""

    def history(calls):
        yield declared("m", "mutex")
        for _ in range(calls // 2):
            for op in ("lock", "unlock"):
                yield call(0, "m", op)
                yield returned(0, "m", OKAY)
        for process in range(1, tries + 1):
            yield call(process, "m", "try_lock")
        for process in range(1, tries + 1):
            yield returned(process, "m", "false")

    return history


def register(processes):
    return lambda calls: lines("x", "register", simulated(Register(), processes, calls))


def drawn(processes, numbers):
    return lambda calls: lines("x", "register", simulated(Drawn(numbers), processes, calls))


def repeating(processes, twice):
    return lambda calls: lines("x", "register", simulated(Repeating(twice, calls), processes, calls))


def swapping(processes, loses, share=0):
    """Clients that read a register and change it by a `cas`; so many in a hundred of the calls never return."""
    return lambda calls: lines("x", "register", timing_out(Swapping(calls, loses), processes, calls, share))


def register_refuted(processes):
    def history(calls):
        yield from register(processes)(calls - 1)
        yield from impossible_read("x")

    return history


def register_refuted_midway(processes):
    """The same with the impossible read in the middle."""

    def history(calls):
        whole = list(register(processes)(calls - 1))
        middle = len(whole) // 2
        yield from [*whole[:middle], *impossible_read("x"), *whole[middle:]]

    return history


def stopping(stops):
    """A register of four processes, and so many more that stop within a `cas`."""
    return lambda calls: lines("x", "register", simulated(Exchanged(), 4 + stops, calls, stops))


def unknown(processes, share, stale=0, seed=SEED):
    """A register of few values, some of whose calls never return, and perhaps so many stale reads."""

    def history(calls):
        events = timing_out(FewValues(), processes, calls, share, seed)
        return lines("x", "register", with_stale_reads(events, stale, FewValues.values, seed))

    return history


def unknown_pairs(processes, share, keys, stale):
    """A map of few keys and values, some of whose calls never return, and perhaps so many stale gets."""

    def history(calls):
        events = timing_out(FewPairs(keys), processes, calls, share)
        return lines("m", "map", with_stale_reads(events, stale, FewValues.values))

    return history


def unknown_adds(processes, share):
    """A counter of different adds, some of whose calls never return."""
    return lambda calls: lines("c", "counter", timing_out(Adding(), processes, calls, share))


def semaphore(processes, unknown):
    """A counter that is kept within bounds, about so many of whose calls never return."""
    return lambda calls: lines("c", "counter", timing_out(Semaphore(), processes, calls, 100 * unknown / calls))


def forgotten_add(processes, share):
    """The same, of which one `add` was forgotten."""
    return lambda calls: lines("c", "counter", timing_out(ForgetfulCounter(calls), processes, calls, share))


def unknown_items(model, processes, unknown):
    """A queue or a stack, about so many of whose calls never return."""
    return lambda calls: lines("b", model.kind, timing_out(model(), processes, calls, 100 * unknown / calls))


def unknown_items_swapped(model, processes, unknown):
    """The same, two results in each other's place, which no order allows."""
    return lambda calls: lines("b", model.kind, with_wrong_turn(timing_out(model(), processes, calls, 100 * unknown / calls), model))


def unknown_repeated(values, processes, unknown):
    """A queue of items that repeat, about so many of whose calls never return."""
    return lambda calls: lines("j", "queue", timing_out(RepeatedQueue(values), processes, calls, 100 * unknown / calls))


def unknown_objects(number):
    """So many registers in turn, of 150 to 190 calls by 5 clients, 5 to 30 % of them of unknown outcome."""
    chance = random.Random(SEED)
    for object_number in range(number):
        events = timing_out(FewValues(), 5, chance.randrange(150, 191), chance.randrange(5, 31), object_number)
        of_object = (event._replace(process=event.process + 1000 * object_number) for event in events)
        yield from lines(f"x{object_number}", "register", of_object)


class FewQueue(Queue):
    """A queue of few values."""

    def choose(self, chance, number):
        op, value = super().choose(chance, number)
        return op, value if value is None else chance.randrange(FewValues.values)


class FewStack(FewQueue, Stack):
    kind, put, take, end = "stack", "push", "pop", -1


def with_two_in_turn(events, chance):
    """The events, with the results of two calls of one operation in each other's place, where there are two that differ."""
    told = [place for place, event in enumerate(events) if event.reply not in (None, OKAY)]
    pairs = [(one, other) for one in told for other in told if one < other and events[one].op == events[other].op and events[one].reply != events[other].reply]
    if not pairs:
        return events
    one, other = chance.choice(pairs)
    changed = list(events)
    changed[one], changed[other] = events[one]._replace(reply=events[other].reply), events[other]._replace(reply=events[one].reply)
    return changed


def pending(model, is_wrong=False):
    """Histories by their numbers, each of 40 to 60 calls, of which 14 to 40 never return; perhaps with two results in each other's place."""

    def history(number):
        chance = random.Random(number)
        while True:
            calls, share = chance.randrange(40, 61), chance.randrange(30, 61)
            of_object = model()
            events = timing_out(of_object, chance.randrange(3, 9), calls, share, chance.randrange(1 << 32))
            returned = sum(event.reply is not None for event in events)
            if 14 <= calls - returned <= 40:
                return lines("x", of_object.kind, with_two_in_turn(events, chance) if is_wrong else events)

    return history


PENDING = {
    "register": FewValues,
    "counter": Adding,
    "queue": Queue,
    "queue_few": FewQueue,
    "stack": Stack,
    "stack_few": FewStack,
    "set": lambda: Set(3),
    "map": lambda: FewPairs(2),
}


def crashed(writes):
    yield declared("x")
    for process in range(writes):
        yield call(1000 + process, "x", "write", 1_000_000 + process)
    for event in list(register(3)(1000))[1:]:
        yield event
    yield from impossible_read("x")


def maps(calls):
    return lines("m", "map", simulated(Map(), 6, calls))


def many_keys(model, processes, keys, draw=even):
    return lambda calls: lines("m", model.kind, simulated(model(keys, draw), processes, calls))


def many_keys_refuted(processes, keys, tenths):
    return lambda calls: lines("m", "map", with_impossible_reply(simulated(Map(keys, even), processes, calls), "get", tenths))


def own_keys(maps):
    def history(calls):
        """A put of a key of its own each, in turn, over so many maps."""
        names = ["m%d" % number for number in range(maps)]
        for name in names:
            yield declared(name, "map")
        for key in range(calls):
            name = names[key % maps]
            yield call(1, name, "put", (key, key))
            yield returned(1, name, OKAY)

    return history


def own_items(kind, operation, reply=OKAY):
    def history(calls):
        """So many calls of one process in turn, with an item of its own each."""
        yield declared("x", kind)
        for item in range(calls):
            yield call(1, "x", operation, item)
            yield returned(1, "x", reply)

    return history


def maps_refuted(calls):
    yield from maps(calls - 1)
    yield call(IMPOSSIBLE, "m", "get", 0)
    yield returned(IMPOSSIBLE, "m", NEVER)


def forgetful_map(processes, keys, stale, values=None):
    return lambda calls: lines("m", "map", simulated(ForgetfulMap(keys, calls, stale, values), processes, calls))


def forgetful_queue(processes, most, forgotten):
    return lambda calls: lines("q", "queue", simulated(ForgetfulQueue(most, calls, forgotten), processes, calls))


def wrong_in_turn(model, processes, take, count):
    return lambda calls: lines("x", model.kind, with_results_in_turn(simulated(model(), processes, calls), take, count))


def old_reply(model, processes, take):
    return lambda calls: lines("x", model.kind, with_old_reply(simulated(model(), processes, calls), take))


def unseen_at_once(kind, put, take, key=None):
    """So many items put at once, beside as many calls that each found what nobody put, and then a call that finds each."""

    def history(count):
        yield declared("x", kind)
        for item in range(count):
            yield call(item, "x", put, item if key is None else (key, item))
            yield call(count + item, "x", take, key)
        for item in range(count):
            yield returned(item, "x", OKAY)
            yield returned(count + item, "x", NEVER - item)
        for item in range(count):
            yield call(item, "x", take, key)
            yield returned(item, "x", item)

    return history


def queue_swapped(processes, most, count):
    return lambda calls: lines("q", "queue", with_pairs_swapped(simulated(FilledQueue(most), processes, calls), "deq", count))


def queue_taken_twice(processes, most, count):
    return lambda calls: lines("q", "queue", with_items_taken_twice(simulated(FilledQueue(most), processes, calls), "deq", count))


def pool_swapped(processes, items, count):
    return lambda calls: lines("q", "queue", with_pairs_swapped(simulated(Pool(items), processes, calls), "deq", count))


def parted(model, processes):
    return lambda calls: lines("x", model().kind, simulated(Parted(model(), calls), processes, calls))


def likes(processes):
    """A counter of +1 whose replicas part."""
    return parted(Counter, processes)


def all_at_once(count):
    """So many writes at once, and then as many reads at once, of which each second one found the value of another write than the
    others."""
    yield declared("x")
    for process in range(count):
        yield call(process, "x", "write", process)
    for process in range(count):
        yield returned(process, "x", OKAY)
    for process in range(count):
        yield call(process, "x", "read")
    for process in range(count):
        yield returned(process, "x", process % 2)


def buffer(model):
    return lambda calls: lines("b", model.kind, simulated(model(), 6, calls))


def buffer_swapped(model):
    return lambda calls: lines("b", model.kind, with_swapped_results(simulated(model(), 6, calls), model.take))


def backlog_swapped(model, most):
    return lambda calls: lines("b", model.kind, with_swapped_results(simulated(model(most), 6, calls), model.take))


def backlog_taken_twice(model, most):
    return lambda calls: lines("b", model.kind, with_item_taken_twice(simulated(model(most), 6, calls), model.take))


def repeated(values):
    return lambda calls: lines("j", "queue", simulated(RepeatedQueue(values), 6, calls))


def counter(processes, pending=0):
    """A counter of so many processes, and so many more that stop within an add."""
    return lambda calls: lines("c", "counter", simulated(Counter(), processes + pending, calls, pending))


def backlog(model, most, processes=6, stops=0):
    return lambda calls: lines("b", model.kind, simulated(model(most), processes + stops, calls, stops))


def sequential(calls):
    """Writes and reads of one register, of which one in eight overlaps the next."""
    yield declared("x")
    for value in range(calls // 2):
        reading = [call(2, "x", "read"), returned(2, "x", value)]
        yield call(1, "x", "write", value)
        if value % 4 == 0:
            yield from reading
        yield returned(1, "x", OKAY)
        if value % 4 != 0:
            yield from reading


def sequential_refuted(calls):
    yield from sequential(calls - 2)
    yield call(1, "x", "write", 0)
    yield returned(1, "x", OKAY)
    yield from impossible_read("x")


def objects(number):
    """So many registers of 60 calls, to each of which one process writes and reads."""
    names = ["o%d" % index for index in range(number)]
    for name in names:
        yield declared(name)
    for value in range(30):
        for process, name in enumerate(names):
            yield call(process, name, "write", value)
            yield returned(process, name, OKAY)
            yield call(process, name, "read")
            yield returned(process, name, value)


def registers(most):
    """So many calls in turn of one process, 4,096 on each register."""
    names = ["o%d" % number for number in range(most // 4096)]
    for name in names:
        yield declared(name)
    for value in range(4096):
        for name in names:
            yield call(1, name, "write", value)
            yield returned(1, name, OKAY)


# ---- histories that are only read: they end with a faulty line


def calls(most):
    yield from registers(most)
    yield FAULTY


def padded(line, *words):
    """The line with a key that is ignored, as long as a line may be with its line feed."""
    bare = line(*words, more=',"note":""')
    return line(*words, more=',"note":"' + "n" * (LINE - len(bare)) + '"')


def largest(size):
    yield padded(declared, "x")
    for value in range(size // LINE // 2 - 1):
        yield padded(call, 1, "x", "write", value)
        yield padded(returned, 1, "x", OKAY)
    yield "[" + " " * (LINE - 3) + "]\n"


class Family(NamedTuple):
    what: str
    unit: str
    sizes: list[int]
    status: int  # the exit status of a check
    history: Callable[[int], Iterable[str]]


CALLS = [512, 1024, 2048, 4096]
MORE_CALLS = [*CALLS, 8192, 16384]
STALE_READS = {5: 8, 10: 12, 20: 24}
COUNTER_CALLS = [1024, 4096, 16384]
BACKLOG_CALLS = [400, *MORE_CALLS]
ALL_CALLS = [65536, 131072, 262144]
FAMILIES = {
    "calls": Family("short lines, registers of 4,096 calls; read only", "calls", ALL_CALLS, 2, calls),
    "calls_checked": Family("the same, checked", "calls", ALL_CALLS, 0, registers),
    "largest": Family("lines as long as they may be; read only", "bytes", [INPUT], 2, largest),
    "objects": Family("registers of 60 calls in turn", "objects", [10, 100, 1000], 0, objects),
    "sequential": Family("a register, one call in eight overlaps the next", "calls", MORE_CALLS, 0, sequential),
    "sequential_no": Family("the same, and an impossible read", "calls", MORE_CALLS, 1, sequential_refuted),
    "register_2": Family("a register, 2 processes", "calls", CALLS, 0, register(2)),
    "register_2_no": Family("the same, and an impossible read", "calls", CALLS, 1, register_refuted(2)),
    "register_5": Family("a register, 5 processes", "calls", CALLS, 0, register(5)),
    "register_5_no": Family("the same, and an impossible read", "calls", CALLS, 1, register_refuted(5)),
    "register_10": Family("a register, 10 processes", "calls", CALLS, 0, register(10)),
    "register_10_no": Family("the same, and an impossible read", "calls", CALLS, 1, register_refuted(10)),
    "register_12_no": Family("a register, 12 processes, and an impossible read", "calls", CALLS[-1:], 1, register_refuted(12)),
    "register_14": Family("a register, 14 processes", "calls", CALLS[-1:], 0, register(14)),
    "register_14_no": Family("the same, and an impossible read", "calls", CALLS[-1:], 1, register_refuted(14)),
    "register_24_no_5": Family("a register, 24 processes, and an impossible read in the middle", "calls", CALLS[-1:], 1, register_refuted_midway(24)),
    "register_16": Family("a register, 16 processes", "calls", CALLS[-1:], 0, register(16)),
    "register_32": Family("a register, 32 processes", "calls", MORE_CALLS[-1:], 0, register(32)),
    "register_64": Family("a register, 64 processes", "calls", MORE_CALLS[-1:], 0, register(64)),
    **{
        f"values_{processes}_{numbers}": Family(f"a register, values drawn from {numbers:,}, {processes} processes", "calls", [8000], 0, drawn(processes, numbers))
        for processes in (16, 32, 64)
        for numbers in (10**9, 10**6, 10**4, 1000, 200)
    },
    **{
        f"values_{processes}_twice_{twice}": Family(
            f"a register, {twice} values written twice, {processes} processes", "calls", [8000], 0, repeating(processes, twice)
        )
        for processes in (16, 32, 64)
        for twice in (3, 10, 30)
    },
    "swaps": Family("reads and changes by cas, 8 processes", "calls", [1000, 4000], 0, swapping(8, False)),
    "swaps_lost": Family("the same, and one change is lost", "calls", [1000, 4000], 1, swapping(8, True)),
    "swaps_lost_unknown": Family("the same, 2 in 100 of the calls never return", "calls", [1000, 4000], 1, swapping(8, True, 2)),
    **{
        f"keys_stale_{processes}": Family(f"a map of 10 keys, {processes} processes, and one stale get", "calls", [3000, 16000], 1, forgetful_map(processes, 10, 1))
        for processes in (24, 50)
    },
    "stopping_20": Family("a register with cas, 4 processes, and 20 more that stop within a cas", "calls", CALLS, 0, stopping(20)),
    "queue": Family("a queue, 6 processes", "calls", CALLS, 0, buffer(Queue)),
    "queue_no": Family("the same, two results swapped", "calls", CALLS, 1, buffer_swapped(Queue)),
    **{
        f"backlog_{most}": Family(f"a queue filled to {most} items and emptied, 6 processes", "calls", BACKLOG_CALLS, 0, backlog(FilledQueue, most))
        for most in (16, 32, 64, 128)
    },
    **{
        f"queue_repeated_{values}": Family(f"a queue of {values} items that repeat, filled to 20 and emptied, 6 processes", "calls", BACKLOG_CALLS, 0, repeated(values))
        for values in (10, 100, 10_000)
    },
    **{
        f"stopped_{stops}": Family(
            f"the same with 64 items, and {stops} more that stop within a dequeue", "calls", BACKLOG_CALLS, 0, backlog(FilledQueue, 64, stops=stops)
        )
        for stops in (1, 2, 4, 8, 16)
    },
    **{
        f"counter_{processes}": Family(f"a counter, {processes} processes that add 1 or get", "calls", COUNTER_CALLS, 0, counter(processes))
        for processes in (4, 8, 16, 32)
    },
    **{
        f"counter_pending_{pending}": Family(
            f"a counter, 8 processes that add 1 or get, and {pending} more that stop within an add", "calls", COUNTER_CALLS, 0, counter(8, pending)
        )
        for pending in (5, 20, 80)
    },
    "stack": Family("a stack, 6 processes", "calls", CALLS, 0, buffer(Stack)),
    "stack_no": Family("the same, two results swapped", "calls", CALLS, 1, buffer_swapped(Stack)),
    **{
        f"stack_backlog_{most}": Family(
            f"a stack filled to {most} items and emptied, {processes} processes", "calls", BACKLOG_CALLS, 0, backlog(FilledStack, most, processes)
        )
        for most, processes in ((16, 6), (64, 16), (128, 32))
    },
    **{
        f"stack_stopped_{stops}": Family(
            f"a stack filled to 64 items and emptied, 6 processes, and {stops} more that stop within a pop",
            "calls",
            BACKLOG_CALLS,
            0,
            backlog(FilledStack, 64, stops=stops),
        )
        for stops in (1, 2, 4, 8, 16)
    },
    "map": Family("a map of 16 keys, 6 processes", "calls", CALLS, 0, maps),
    **{
        f"{model.kind}_{processes}_{keys}{'_skewed' if draw is skewed else ''}": Family(
            f"a {model.kind} of {keys:,} keys{', some more used than others' if draw is skewed else ''}, {processes} processes",
            "calls",
            MORE_CALLS[-1:],
            0,
            many_keys(model, processes, keys, draw),
        )
        for model in (Map, Set)
        for draw in (even, skewed)
        for processes in (4, 8, 16, 32)
        for keys in (10, 100, 1000)
    },
    "map_64_10": Family("a map of 10 keys, 64 processes", "calls", MORE_CALLS[-1:], 0, many_keys(Map, 64, 10)),
    "own_keys": Family("a map, a put of a key of its own each, in turn", "calls", MORE_CALLS[-1:], 0, own_keys(1)),
    "own_keys_16": Family("the same on 16 maps", "calls", ALL_CALLS[-1:], 0, own_keys(16)),
    "own_enqueues": Family("a queue, an enqueue of an item of its own each, in turn", "calls", MORE_CALLS[-1:], 0, own_items("queue", "enq")),
    "own_pushes": Family("the same of a stack", "calls", MORE_CALLS[-1:], 0, own_items("stack", "push")),
    "own_additions": Family("the same of a set", "calls", MORE_CALLS[-1:], 0, own_items("set", "add", "true")),
    "backlog_32_no": Family("a queue filled to 32 items and emptied, two results swapped", "calls", BACKLOG_CALLS, 1, backlog_swapped(FilledQueue, 32)),
    "stack_backlog_32_no": Family("the same of a stack", "calls", BACKLOG_CALLS, 1, backlog_swapped(FilledStack, 32)),
    "backlog_32_twice": Family("a queue filled to 32 items and emptied, one item taken twice", "calls", BACKLOG_CALLS, 1, backlog_taken_twice(FilledQueue, 32)),
    "stack_backlog_32_twice": Family("the same of a stack", "calls", BACKLOG_CALLS, 1, backlog_taken_twice(FilledStack, 32)),
    **{
        f"map_{processes}_{keys}_no_{tenths}": Family(
            f"a map of {keys:,} keys, {processes} processes, and an impossible get after {tenths} tenths of the gets",
            "calls",
            MORE_CALLS[-1:],
            1,
            many_keys_refuted(processes, keys, tenths),
        )
        for processes in (16, 32)
        for keys in (100, 1000)
        for tenths in (5, 10)
    },
    "map_no": Family("the same, and an impossible get", "calls", CALLS, 1, maps_refuted),
    **{
        f"stale_{processes}_{stale}": Family(
            f"a map of 100 keys, {processes} processes, of which {stale} gets at once found old values", "calls", [900, 4000], 1, forgetful_map(processes, 100, stale)
        )
        for processes in (16, 32)
        for stale in (1, 3, 9)
    },
    **{
        f"stale_{processes}_{stale}_few": Family(
            f"the same of 10 keys, with values 0 to 4, and {stale} old ones", "calls", [900, 3600], 1, forgetful_map(processes, 10, stale, 5)
        )
        for processes in (16, 32)
        for stale in (1, 3, 9)
    },
    **{
        f"forgot_{processes}_{forgotten}": Family(
            f"a queue, {processes} processes, that forgot {forgotten} items at once", "calls", [1000, 4000], 1, forgetful_queue(processes, 40, forgotten)
        )
        for processes in (16, 24)
        for forgotten in (1, 5, 20)
    },
    **{
        f"{model.kind}_wrong_{count}": Family(f"a {model.kind}, 5 processes, {count} results wrong at once", "calls", [1000, 4000], 1, wrong_in_turn(model, 5, take, count))
        for model, take in ((Register, "read"), (Queue, "deq"), (Stack, "pop"))
        for count in (2, 3, 5)
    },
    "unseen_reads": Family("writes at once, beside reads of what nobody wrote", "writes", [8, 16, 20, 32], 1, unseen_at_once("register", "write", "read")),
    "unseen_gets": Family("the same of a key", "puts", [8, 16, 20, 32], 1, unseen_at_once("map", "put", "get", 7)),
    "unseen_deqs": Family("the same of a queue", "items", [8, 16, 20, 32], 1, unseen_at_once("queue", "enq", "deq")),
    "unseen_pops": Family("the same of a stack", "items", [8, 16, 20, 32], 1, unseen_at_once("stack", "push", "pop")),
    **{
        f"unknown_{processes}_{share}": Family(
            f"a register with cas, values 0 to 4, {processes} clients, {share} % of the calls never return", "calls", [160, 1000, 4000], 0, unknown(processes, share)
        )
        for processes in (5, 10, 20)
        for share in (5, 15, 30)
    },
    **{
        f"unknown_{processes}_{share}": Family("the same, about 500 of the calls never return", "calls", [3000, 3700], 0, unknown(processes, share))
        for processes in (10, 20)
        for share in (16,)
    },
    **{
        f"pending_{name}": Family("the history of this number, of 40 to 60 calls, 14 to 40 of which never return", "number", [1, 2, 3], 0, pending(model))
        for name, model in PENDING.items()
    },
    **{
        f"unknown_{processes}_{share}_no": Family("the same, with stale reads", "calls", [160], 1, unknown(processes, share, STALE_READS[processes]))
        for processes, share in ((5, 5), (5, 15), (10, 5), (10, 15), (20, 5))
    },
    **{
        f"unknown_{processes}_{share}_stale": Family(
            "the same, with stale reads that pending calls explain", "calls", [200], 0, unknown(processes, share, STALE_READS[processes])
        )
        for processes, share in ((5, 30), (10, 15), (10, 30), (20, 5), (20, 15), (20, 30))
    },
    **{
        f"unknown_{model.kind}_{processes}_{count}": Family(
            f"a {model.kind}, {processes} clients, about {count} of the calls never return", "calls", [2000, 4000, 16000], 0, unknown_items(model, processes, count)
        )
        for model in (Queue, Stack)
        for processes in (32, 64)
        for count in (14, 100, 300)
    },
    **{
        f"unknown_{model.kind}_{processes}_{count}_no": Family(
            "the same, two results swapped so that there is no order", "calls", [2000, 4000, 16000], 1, unknown_items_swapped(model, processes, count)
        )
        for model in (Queue, Stack)
        for processes in (32, 64)
        for count in (14, 100, 300)
    },
    **{
        f"unknown_repeated_{values}_{count}": Family(
            f"a queue of {values} items that repeat, filled to 20 and emptied, 8 clients, about {count} of the calls never return", "calls", [4000], 0, unknown_repeated(values, 8, count)
        )
        for values in (16, 100)
        for count in (10, 30, 100)
    },
    "unknown_objects": Family("registers of 150 to 190 calls, 5 clients, values 0 to 4, 5 to 30 % of the calls never return", "objects", [100], 0, unknown_objects),
    **{
        f"unknown_adds_{processes}_{share}": Family(
            f"a counter, adds of 1 to 100, {processes} clients, {share} % of the calls never return", "calls", [500, 1000, 2000], 0, unknown_adds(processes, share)
        )
        for processes in (5, 8, 10, 16)
        for share in (1, 5)
    },
    **{
        f"semaphore_16_{count}": Family(f"a counter, adds of 1 and -1, 16 clients, about {count} of the calls never return", "calls", [4000], 0, semaphore(16, count))
        for count in (40, 70)
    },
    **{
        f"unknown_adds_{processes}_{share}_no": Family("the same, of which one add was forgotten", "calls", [500, 1000, 2000], 1, forgotten_add(processes, share))
        for processes in (5, 8, 16)
        for share in (1, 5)
    },
    **{
        f"unknown_pairs_{processes}_{share}_no": Family(
            f"a map of 3 keys, values 0 to 4, {processes} clients, {share} % of the calls never return, with 4 stale gets",
            "calls",
            [1000],
            1,
            unknown_pairs(processes, share, 3, 4),
        )
        for processes, share in ((5, 5), (10, 5), (20, 5))
    },
    "crashed": Family("pending writes before 1,000 calls, and an impossible read", "pending", [1, 2, 4, 6], 1, crashed),
    "additions": Family("concurrent additions of different numbers, and an impossible get", "additions", [14, 16, 18, 20], 1, additions),
    "shared_additions": Family(
        "numbers that two clients add at once, and a third that stops, and an impossible get", "numbers", [5, 6, 7, 8], 1, shared_additions
    ),
    "shared_sums": Family("the same, and a get of a sum of some", "numbers", [3, 4, 5], 0, shared_sums),
    "pending_additions": Family("clients that stopped within an addition, and a get to which two of them led", "clients", [8, 32], 0, pending_additions),
    "pending_gets_no": Family("clients that stopped within a get, and a get of more than was added", "clients", [8, 32], 1, pending_gets),
    "equal_additions": Family("concurrent additions of 1, and a get of one more", "additions", [16, 40], 1, equal_additions),
    **{
        f"mutex_{processes}": Family(f"a mutex, {processes} processes, every third taken by `try_lock`", "calls", MORE_CALLS[:-1] + [16000], 0, mutex(processes, 30))
        for processes in (5, 30)
    },
    "mutex_free_tries": Family("tries at once to take a mutex that nobody holds, each answered no", "calls", [500, 1000, 4000], 1, free_tries),
    "mutex_rounds_and_tries": Family("a mutex taken and given back in turn, then 16 tries at once, each answered no", "calls", [900, 1000, 4000, 16000], 1, rounds_and_tries(16)),
    "mutex_unknown": Family("a mutex, 10 processes, 5 in 100 calls never return", "calls", [2000, 16000], 0, mutex(10, 30, 5)),
    **{
        f"mutex_two_{tenth}": Family(f"the same, 5 processes, and after {tenth} tenths a second holder", "calls", [500, 1000], 1, mutex(5, 30, 2, tenth))
        for tenth in (1, 5, 9)
    },
    "tries": Family("concurrent tries of a held mutex, and an unlock by another", "tries", [18, 22, 64], 1, tries),
    **{
        f"queue_swaps_{count}": Family(f"a queue, 16 processes, {count} pairs out of order", "calls", [4000], 1, queue_swapped(16, 40, count)) for count in (2, 3)
    },
    **{
        f"queue_twice_{count}": Family(f"a queue, 16 processes, {count} items handed out twice", "calls", [4000], 1, queue_taken_twice(16, 40, count))
        for count in (1, 2, 3)
    },
    **{
        f"pool_swaps_{count}": Family(f"a queue of 24 items that go round, 16 processes, {count} pairs out of order", "calls", [4000], 1, pool_swapped(16, 24, count))
        for count in (1, 2, 3)
    },
    **{
        f"{name}_parted_{processes}": Family(f"a {what} whose replicas part for 100 calls, {processes} processes", "calls", [1000, 4000], 1, parted(model, processes))
        for name, what, model in (("counter", "counter", Counter), ("set", "set of 5 items", Members), ("map", "map of 3 keys", ThreeKeys))
        for processes in (8, 16)
    },
    **{
        f"mild_{model.kind}": Family(f"a {model.kind}, 7 processes, and one reply that came 20 before", "calls", [1000, 4000], 1, old_reply(model, 7, take))
        for model, take in ((Register, "read"), (Counter, "get"), (Stack, "pop"))
    },
    "mild_mutex": Family("a mutex, 7 processes, and after 9 tenths a second holder", "calls", [1000, 4000], 1, mutex(7, 30, 0, 9)),
    "register_at_once": Family("writes at once, then reads at once of two of their values", "processes", [512, 1024, 2048], 1, all_at_once),
    "concurrent": Family("concurrent writes, and an impossible read", "writes", [8, 10, 12, 14, 16, 18], 1, concurrent),
}


def main():
    if len(sys.argv) == 3:
        sys.stdout.writelines(FAMILIES[sys.argv[1]].history(int(sys.argv[2])))
    else:
        for name, family in FAMILIES.items():
            print(f"{name:15} {family.what}; {family.unit}: {', '.join(map(str, family.sizes))}")


if __name__ == "__main__":
    main()

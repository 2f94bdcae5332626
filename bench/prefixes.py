#!/usr/bin/env python3
"""Compares what searches of prefixes tell with all orders.

    bench/prefixes.py [--program PROGRAM] [--count COUNT] [--seed SEED] [--keep FOLDER]

Builds `bench/prefixes.program` by `bin/build_unproved.py` (two minutes), unless it is given, and asks it of each history at once,
with no other search before. The histories are random: of a register, a queue, a stack, a set and a map, on one to three keys, and of
a mutex, with many calls at once and some that never return. Of most, two to five replies in a row are wrong. So there are ties between the calls
at which a run may end, and between those that it may leave out. The least linearization, or else the first longest run, is found
by all orders. Prints how many histories of each kind had none, by how many of its completed calls the longest run lacks; and each that
differs. With --keep the histories that differ are kept.
"""
import collections
import sys

from all_orders import compare, orders, words
from explanations import PENDING, START, same, step

KINDS = ["register", "queue", "stack", "set", "map", "mutex"]
MOST_TURNS = 500  # of the clients of one history; calls that wait for a mutex then are pending
OKAY = {"ok": '"ok"', "empty": "null", True: "true", False: "false"}


def draw(chance, kind, keys, values, number, held=False):
    """A call. `held` says whether the process seems to hold the mutex."""
    key, value = chance.randrange(keys), chance.randrange(values) if values else number
    ops = {
        "register": [("write", [value]), ("read", []), ("read", []), ("cas", [chance.randrange(3), value])],
        "queue": [("enq", [value]), ("deq", [])],
        "stack": [("push", [value]), ("pop", [])],
        "set": [("add", [key]), ("remove", [key]), ("contains", [key])],
        "map": [("put", [key, value]), ("put", [key, value]), ("get", [key]), ("get", [key]), ("delete", [key])],
        "mutex": [("unlock", [])] if held else [("lock", []), ("try_lock", [])],
    }
    return chance.choice(ops[kind])


def wrong(chance, op, reply, seen):
    """Another reply that the call could have by its form."""
    if isinstance(reply, bool):
        return not reply
    if reply == "ok":
        return reply
    others = [value for value in [*seen, -1, *(["empty"] if op in ("deq", "pop", "get") else [])] if not same(value, reply)]
    return chance.choice(others)


def events_of(chance, kind):
    """The events of simulated calls: process, operation, arguments, and the reply of a return."""
    processes, count, keys = chance.randrange(2, 7), chance.randrange(5, 13), chance.randrange(1, 4)
    values, state = chance.choice([0, 2, 3]), START[kind]
    events, called, done, held, made = [], {}, {}, set(), 0
    stopped = set(chance.sample(range(processes), chance.choice([0, 0, 1, 2]) if processes > 2 else 0))
    for _ in range(MOST_TURNS):
        if made == count and not (set(called) | set(done)) - stopped:
            break
        process = chance.randrange(processes)
        if process in called and (process not in stopped or chance.random() < 0.5):
            op, args = called[process]
            answer = step(kind, state, process, op, args)
            if answer is None and chance.random() < 0.8:
                continue
            # a fault: a lock of a mutex that is held returns
            state, reply = answer or (state, "ok")
            called.pop(process)
            done[process] = op, args, reply
        elif process in done and process not in stopped:
            op, args, reply = done.pop(process)
            held ^= {process} if op in ("lock", "unlock") or op == "try_lock" and reply else set()
            events.append((process, op, args, reply))
        elif process not in called and process not in done and made < count:
            made += 1
            called[process] = draw(chance, kind, keys, values, made, process in held)
            events.append((process, *called[process], None))
        elif made < count and not set(range(processes)) - stopped - set(called) - set(done) and stopped >= set(called) | set(done):
            break
    return events


def history(chance, kind):
    """A history's text."""
    events = events_of(chance, kind)
    told = [place for place, event in enumerate(events) if event[3] is not None and event[3] != "ok"]
    count = chance.choice([0, 1, 2, 2, 3, 3, 4, 5])
    first = chance.randrange(max(1, len(told) - count + 1))
    seen = [event[3] for event in events if isinstance(event[3], int) and not isinstance(event[3], bool)]
    for place in told[first : first + count]:
        process, op, args, reply = events[place]
        events[place] = process, op, args, wrong(chance, op, reply, seen)
    lines = [f'{{"event":"object","object":"x","kind":"{kind}"}}\n']
    for process, op, args, reply in events:
        if reply is None:
            shown = f',"args":{args}' if args else ""
            lines.append(f'{{"event":"call","process":{process},"object":"x","op":"{op}"{shown}}}\n')
        else:
            shown = str(reply) if isinstance(reply, int) and not isinstance(reply, bool) else OKAY[reply]
            lines.append(f'{{"event":"return","process":{process},"object":"x","result":{shown}}}\n')
    return "".join(lines)


def main():
    asked = words(__doc__, 10_000).parse_args()
    tally = collections.Counter()

    def wanted(kind, start, calls, said):
        order, run = orders(kind, start, calls)
        if order is not None:
            tally[kind, None] += 1
            return " ".join(["order", *map(str, order)])
        last = max(run, default=-1)
        tally[kind, sum(call["returned"] is not PENDING for c, call in enumerate(calls) if c <= last and c not in run)] += 1
        return " ".join(["run", *map(str, run)])

    differ = compare(asked, "prefixes", lambda chance, number: history(chance, KINDS[number % len(KINDS)]), wanted)
    for kind in KINDS:
        lacking = {d: tally[kind, d] for d in range(20) if tally[kind, d]}
        print(f"{kind}: {tally[kind, None]} with an order; runs by how many completed calls they lack: {lacking}")
    refuted = sum(count for (_, lacking), count in tally.items() if lacking is not None)
    print(f"{asked.count} histories, {refuted} without an order, {differ} differ")
    return 1 if differ else 0


if __name__ == "__main__":
    sys.exit(main())

#!/usr/bin/env python3
"""Compares what the first search of a mutex, a queue whose items repeat, a register, a map of one key or a set of one item tells with
all orders.

    bench/first.py [--kind KIND] [--program PROGRAM] [--count COUNT] [--seed SEED] [--lifts LIFTS] [--keep FOLDER]

Builds `bench/first.program` by `bin/build_unproved.py` (two minutes), unless it is given, and asks it of each history at once, with at
most LIFTS lifts for each call (1,000,000). The histories are random, small, and on one mutex (or on one object of KIND). In two thirds
of them some calls are pending; some unlocks are of processes that hold nothing, there are two to five different items or values, and of
most histories one to three replies are wrong. The least linearization, or that there is none, is found by
all orders. Prints how many histories had an order and how many had none, of how many
nothing was told, and each that differs. With --keep the histories that differ are kept.
"""
import collections
import json
import sys

from all_orders import compare, order_line, orders, words
from explanations import PENDING, START, step

MOST_CALLS = 13


def events_of(chance):
    """The events of simulated calls, each a process, an operation and perhaps a reply; and which processes end with `info`."""
    count, clients = chance.randrange(3, MOST_CALLS), list(range(chance.randrange(2, 6)))
    lost, stray = chance.choice([0, 0.2, 0.3, 0.4]), chance.choice([0, 0, 0.1])
    holder, called, done, events, fresh, made = None, {}, {}, [], 10, 0
    for _ in range(40 * MOST_CALLS):
        place = chance.randrange(len(clients))
        process = clients[place]
        if process in done:
            events.append((process, *done.pop(process)))
        elif process in called:
            op = called[process]
            after = step("mutex", holder, process, op, [])
            if chance.random() < lost or after is None and (op == "unlock" or made == count):
                if after is not None and chance.random() < 0.5:
                    holder = after[0]
                if op == "unlock" and after is None and chance.random() < 0.5:
                    done[process] = op, "ok"
                else:
                    clients[place], fresh = fresh, fresh + 1
                del called[process]
            elif after is not None:
                holder, done[process] = after[0], (op, after[1])
                del called[process]
        elif made < count:
            made += 1
            called[process] = "unlock" if holder == process or chance.random() < stray else chance.choice(["lock", "try_lock"])
            events.append((process, called[process], None))
        elif not called and not done:
            break
    return events


def drawn_call(chance, kind, values):
    """An operation of the kind with its arguments, of some values: of a map, all on one key; of a set, all on one item."""
    value, other = chance.randrange(values), chance.randrange(values)
    if kind == "queue":
        return ("enq", [value]) if chance.random() < 0.5 else ("deq", [])
    if kind == "register":
        return chance.choice([("write", [value]), ("read", []), ("read", []), ("cas", [value, other])])
    if kind == "set":
        return chance.choice(["add", "remove", "contains"]), [1]
    return chance.choice([("put", [1, value]), ("get", [1]), ("get", [1]), ("delete", [1])])


def simulated_events(chance, kind):
    """The same of another kind, each event with the operation's arguments before the reply."""
    count, clients = chance.randrange(3, MOST_CALLS), list(range(chance.randrange(2, 6)))
    lost, values = chance.choice([0, 0.2, 0.3]), chance.randrange(2, 4 if kind == "queue" else 6)
    state, called, done, events, fresh = START[kind], {}, {}, [], 10
    while count or called or done:
        place = chance.randrange(len(clients))
        process = clients[place]
        if process in done:
            events.append((process, *done.pop(process)))
        elif process in called:
            op, args = called.pop(process)
            after, reply = step(kind, state, process, op, args)
            if chance.random() < lost:
                state = chance.choice([state, after])
                clients[place], fresh = fresh, fresh + 1
            else:
                state, done[process] = after, (op, args, reply)
        elif count:
            count -= 1
            called[process] = drawn_call(chance, kind, values)
            events.append((process, *called[process], None))
    return events


def wrong(chance, reply):
    """Another reply of an operation that tells something."""
    return not reply if isinstance(reply, bool) else chance.choice([value for value in (0, 1, 2, "empty") if value != reply])


def history(chance, kind):
    """A history's text, with some wrong replies."""
    events = [(*event[:2], [], event[2]) for event in events_of(chance)] if kind == "mutex" else simulated_events(chance, kind)
    told = [place for place, (*_, reply) in enumerate(events) if reply not in (None, "ok")]
    turned = set(chance.sample(told, min(len(told), chance.choice([0, 0, 1, 2, 3]))))
    lines = ['{"format":2}', json.dumps({"event": "object", "object": "x", "kind": kind})]
    for place, (process, op, args, reply) in enumerate(events):
        if reply is None:
            lines.append(json.dumps({"event": "call", "process": process, "object": "x", "op": op, "args": args}))
        else:
            result = wrong(chance, reply) if place in turned else reply
            result = None if result == "empty" else result
            lines.append(json.dumps({"event": "return", "process": process, "object": "x", "result": result}))
    return "\n".join(lines) + "\n"


def main():
    parser = words(__doc__, 20_000)
    parser.add_argument("--kind", choices=["mutex", "queue", "register", "map", "set"], default="mutex")
    parser.add_argument("--lifts", type=int, default=1_000_000)
    asked = parser.parse_args()
    tally = collections.Counter()

    def wanted(kind, start, calls, said):
        order, _ = orders(kind, start, calls)
        tally[order is None] += 1
        tally["pending"] += any(call["returned"] is PENDING for call in calls)
        if said != "nothing":
            return order_line(order)
        tally["nothing"] += 1
        tally["nothing of none"] += order is None
        return said

    differ = compare(asked, "first", lambda chance, number: history(chance, asked.kind), wanted, [str(asked.lifts)])
    print(f"{asked.kind}: {tally[False]} with an order, {tally[True]} without, {tally['pending']} with pending calls")
    print(f"nothing told of {tally['nothing']}, of which {tally['nothing of none']} have no order; {differ} differ")
    return 1 if differ else 0


if __name__ == "__main__":
    sys.exit(main())

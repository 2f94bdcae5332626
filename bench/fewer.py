#!/usr/bin/env python3
"""Compares what the search tells that tries pending calls only between completed ones with all orders.

    bench/fewer.py [--program PROGRAM] [--count COUNT] [--seed SEED] [--keep FOLDER]

Builds `bench/fewer.program` by `bin/build_unproved.py` (two minutes), unless it is given, and asks it of each history at once, with no
other search before. The histories are random, small, and of all kinds. In two thirds of them some calls are pending: they never
return, or their processes end. Many calls are identical, and some fail. Of most one to three replies are wrong. The least
linearization, or that there is none, is found by all orders. Prints how many histories of each kind had an order and how many had
none; and each that differs. With --keep the histories that differ are kept.
"""
import collections
import json
import sys

from all_orders import compare, order_line, orders, words
from explanations import PENDING, START, step
from prefixes import wrong

KINDS = ["register", "counter", "queue", "stack", "set", "mutex", "map"]
MOST_CALLS = 12


def draw(chance, kind, keys, values, adds, held):
    """A call: its operation and its arguments. `adds` are what is added, and `held` says whether the process holds the mutex."""
    key, value = chance.randrange(keys), chance.randrange(values)
    ops = {
        "register": [("write", [value]), ("read", []), ("cas", [chance.randrange(values), value])],
        "counter": [("add", [chance.choice(adds)]), ("get", [])],
        "queue": [("enq", [value]), ("deq", [])],
        "stack": [("push", [value]), ("pop", [])],
        "set": [("add", [key]), ("remove", [key]), ("contains", [key])],
        "mutex": [("unlock", [])] if held else [("lock", []), ("try_lock", [])],
        "map": [("put", [key, value]), ("get", [key]), ("delete", [key])],
    }
    return chance.choice(ops[kind])


def history(chance, kind):
    """A history's text: that of simulated calls, of which some never return or fail, with some wrong replies."""
    count, keys, values = chance.randrange(3, MOST_CALLS), chance.randrange(1, 3), chance.randrange(1, 4)
    adds = chance.choice([[1], [1, 2, 3], [1, 2, 5, 7], [-1, -2, -5], [-3, 2, 5], [0, 1, 4]])
    clients, fresh = list(range(chance.randrange(2, 5))), 10
    lost = chance.choice([0, 0.3, 0.4, 0.4])
    state, called, done, events, made = START[kind], {}, {}, [], 0
    for _ in range(40 * MOST_CALLS):
        place = chance.randrange(len(clients))
        process = clients[place]
        if process in done:
            op, reply = done.pop(process)
            events.append({"event": "return", "process": process, "object": "x", "result": reply, "op": op})
        elif process in called:
            op, args = called[process]
            if chance.random() < lost or made == count and step(kind, state, process, op, args) is None:
                del called[process]
                clients[place], fresh = fresh, fresh + 1
                after = step(kind, state, process, op, args)
                if after is not None and chance.random() < 0.5:
                    state = after[0]
                if chance.random() < 0.3:
                    events.append({"event": "info", "process": process, "object": "x"})
            elif chance.random() < 0.05:
                del called[process]
                events.append({"event": "fail", "process": process, "object": "x"})
            else:
                after = step(kind, state, process, op, args)
                if after is not None:
                    state, done[process] = after[0], (op, after[1])
                    del called[process]
        elif made < count:
            made += 1
            called[process] = draw(chance, kind, keys, values, adds, state == process and kind == "mutex")
            op, args = called[process]
            events.append({"event": "call", "process": process, "object": "x", "op": op, "args": args})
        elif not called and not done:
            break
    told = [event for event in events if event["event"] == "return" and event["result"] != "ok"]
    seen = [event["result"] for event in told if isinstance(event["result"], int) and not isinstance(event["result"], bool)]
    for event in chance.sample(told, min(len(told), chance.randrange(4))):
        event["result"] = wrong(chance, event["op"], event["result"], seen)
    lines = ['{"format":2}\n', json.dumps({"event": "object", "object": "x", "kind": kind}) + "\n"]
    for event in events:
        if event["event"] == "return":
            del event["op"]
            event["result"] = None if event["result"] == "empty" else event["result"]
        if event["event"] == "call" and not event["args"]:
            del event["args"]
        lines.append(json.dumps(event) + "\n")
    return "".join(lines)


def main():
    asked = words(__doc__, 10_000).parse_args()
    tally = collections.Counter()

    def wanted(kind, start, calls, said):
        order, _ = orders(kind, start, calls)
        tally[kind, order is None] += 1
        tally["pending"] += any(call["returned"] is PENDING for call in calls)
        return order_line(order)

    differ = compare(asked, "fewer", lambda chance, number: history(chance, KINDS[number % len(KINDS)]), wanted)
    for kind in KINDS:
        print(f"{kind}: {tally[kind, False]} with an order, {tally[kind, True]} without")
    print(f"{asked.count} histories, {tally['pending']} with pending calls, {differ} differ")
    return 1 if differ else 0


if __name__ == "__main__":
    sys.exit(main())

#!/usr/bin/env python3
"""Checks the cores that `core_of` finds, and the gets of counters that `sum_fault_of` finds, by the definitions alone.

    bench/cores.py [--program PROGRAM] FILE..
    bench/cores.py [--program PROGRAM] --random COUNT [--seed N] [--counters] [--items]

Builds `bench/cores.program` by `bin/build_unproved.py` (two minutes), unless it is given, and runs it on each history. All
orders of a core's calls are tried: there may be none. The calls left out may not be needed: each is none of the core's values,
or changes nothing, or precedes the first, which begins anew; or it is one of some that precede them all and put each of the
items into a queue or a stack as often as they took it out; or the first returned with a reply that its operation never gives;
or a queue's or a stack's calls on one item all put it in or returned with it, and no other call puts it in. A core can't be
smaller: cut at an earlier return, without one of its values, without one call that changes nothing, without pending calls that
may take its one item or, where it has many, without those before a moment at which each of its items was out, its calls have an
order. A core that begins at an event may have no order from any state that stands for what the object held before: nothing, one
of the core's values, or another; what returned before that event is over. Of a map's key one value may count alone from a
second event on: then the calls that were called after it and do not put the value are left out. Of small histories all orders
of the whole are tried too: one with an order may have no core. The sums of a get for whose reply the adds leave no room are
made anew; one has to be found exactly where some get has such a reply, counted from the start or from an earlier get. Prints
how many cores have how many calls, and each object without an order of which no core was found. With --counters all random
histories are of counters that add different numbers; with --items they are of queues and stacks of a few items that are emptied
time and again.
"""
import argparse
import collections
import random
import subprocess
import sys
import tempfile
from pathlib import Path

BENCH = Path(__file__).resolve().parent
sys.path[:0] = [str(BENCH), str(BENCH.parent / "bin")]
from explanations import PENDING, gave_another, precedes, read, same
from explanations import step as step_of_any_size

# Histories of which all orders are tried, and cores: those with more calls are counted only. Of items that few calls put and take at
# one moment so many calls are tried.
SMALL, MOST, MOST_IN_TURN = 14, 20, 60
# A core of more calls begins at the last moment at which each of its items was out.
FEW = 8
BITS = 63
CHANGE_NOTHING = {"read", "get", "contains"}


def step(kind, state, process, op, args):
    """The next state and the reply, or None where there is no step: as one beyond 64 bits."""
    answer = step_of_any_size(kind, state, process, op, args)
    return None if kind == "counter" and not -(2**BITS) <= answer[0] < 2**BITS else answer


def has_order(kind, start, calls):
    """Whether some order of the calls is a linearization, by all orders, with what was seen kept."""
    seen, left = set(), [(frozenset(range(len(calls))), start)]
    while left:
        rest, state = left.pop()
        if all(calls[c]["returned"] is PENDING for c in rest):
            return True
        for c in rest:
            call = calls[c]
            if any(precedes(calls[b], call) for b in rest if b != c):
                continue
            answer = step(kind, state, call["process"], call["op"], call["args"])
            if answer is None or call["returned"] is not PENDING and not same(answer[1], call["returned"][1]):
                continue
            after = rest - {c}, answer[0]
            if after not in seen:
                seen.add(after)
                left.append(after)
    return False


def is_idle(kind, call):
    """Whether the call is known to change nothing."""
    op, returned = call["op"], call["returned"]
    if op in CHANGE_NOTHING:
        return True
    if op == "cas" and call["args"][0] == call["args"][1]:
        return True
    return returned is not PENDING and (returned[1] == "empty" or returned[1] is False)


def place(kind, call, at):
    """The value that a call is on; `any` where it is on each, and None where it is on none. Of a map's key, where one is given
    with whether it is looked at that it has no value."""
    op, args, returned = call["op"], call["args"], call["returned"]
    if at is not None:
        if op == "get" and args[0] == at[0] and returned is not PENDING:
            return returned[1] if returned[1] != "empty" else "any" if at[1] else None
        return args[1] if op == "put" and args[0] == at[0] else None
    reply = "any" if returned is PENDING or returned[1] == "empty" else returned[1]
    if op in ("read", "deq", "pop"):
        return reply
    if kind == "counter":
        return "any"
    if kind == "mutex":
        return None if reply is False else call["process"]
    if op == "cas":
        return None if reply is False else args[1]
    return args[0]


def cut(call, event):
    """The call as it stood after the event."""
    returned = call["returned"]
    return call | {"returned": returned if returned is not PENDING and returned[0] <= event else PENDING}


def is_on(kind, call, values, at):
    where = place(kind, call, at)
    if where is None or where != "any" and where not in values:
        return False
    return call["op"] != "cas" or call["args"][0] == call["args"][1] or call["args"][0] in values


def may_go(kind, call, values, at):
    """Whether the call may be left out, by what it is on."""
    where = place(kind, call, at)
    if at is not None and where is None:
        return is_idle(kind, call) or call["op"] == "delete" and (call["args"][0] != at[0] or not at[1]) or call["op"] == "put"
    return is_idle(kind, call) or where not in ("any", None) and where not in values


def is_refused_cas(call):
    """Whether it is a `cas` that answered 'no': then a core has all calls that change anything."""
    return call["op"] == "cas" and call["returned"] is not PENDING and call["returned"][1] is False


def begins_anew(kind, start, calls, kept, values, before):
    """Whether the first call that is kept begins anew, behind these calls and before the other ones."""
    first = calls[kept[0]]
    anew = kind == "register" and first["op"] == "write"
    anew |= kind == "map" and first["op"] == "put" and values == {first["args"][0]}
    anew |= kind == "set" and first["op"] == "add" and values == {first["args"][0]} and first["args"][0] not in start and (
        first["returned"] is not PENDING and first["returned"][1] is True
    )
    return anew and all(precedes(c, first) for c in before) and all(precedes(first, calls[k]) for k in kept[1:])


def item_count(call, item):
    """What a call adds to how often an item is in a queue or a stack."""
    if call["op"] in ("enq", "push"):
        return int(call["args"][0] == item)
    return -int(call["op"] in ("deq", "pop") and call["returned"] is not PENDING and call["returned"][1] == item)


def once_out(kind, start, calls, kept, values, before):
    """Whether each of the items was out behind these calls, all of which precede all that are kept."""
    if kind not in ("queue", "stack") or start or not kept:
        return False
    are_even = all(sum(item_count(call, item) for call in before) == 0 for item in values)
    return are_even and all(precedes(call, calls[k]) for call in before for k in kept)


def is_of_one_item(kind, start, calls, kept, event, values):
    """Whether these are calls of a queue or a stack that put one item in or had returned with it, and no other call puts it in."""
    if kind not in ("queue", "stack") or start or len(values) != 1:
        return False
    (item,) = values
    puts = {k for k, c in enumerate(calls) if c["called"] <= event and item_count(c, item) > 0}
    return puts <= set(kept) and all(item_count(cut(calls[k], event), item) for k in kept)


def smaller(kind, calls, kept, event, values, at):
    """The selections next smaller than this one: calls, an event and values."""
    returns = sorted(c["returned"][0] for c in (calls[k] for k in kept) if c["returned"] is not PENDING)
    for earlier in [r for r in returns if r < event][-1:]:
        yield [k for k in kept if calls[k]["called"] <= earlier], earlier, values
    for value in values if len(values) > 1 else []:
        fewer = values - {value}
        on = [k for k in kept if is_on(kind, calls[k], fewer, at)]
        if all(may_go(kind, calls[k], fewer, at) for k in kept if k not in on):
            yield on, event, fewer
    for place in range(1, len(kept)) if len(kept) > FEW else []:
        if once_out(kind, (), calls, kept[place:], values, [calls[k] for k in kept[:place]]):
            yield kept[place:], event, values
    for item in values if len(values) == 1 and kind in ("queue", "stack") else []:
        known = [k for k in kept if item_count(cut(calls[k], event), item)]
        if len(known) < len(kept):
            yield known, event, values
    for k in kept:
        if is_idle(kind, calls[k]):
            yield [other for other in kept if other != k], event, values


def is_enough(kind, start, calls, kept, event, values, at):
    """Whether the other calls may be left out."""
    others = [c for k, c in enumerate(calls) if k not in kept and c["called"] <= event]
    needs_all = kind == "register" and any(is_refused_cas(calls[k]) for k in kept)
    needed = [c for c in others if not (is_idle(kind, c) if needs_all else may_go(kind, c, values, at))]
    if kind == "mutex" or not needed or is_of_one_item(kind, start, calls, kept, event, values):
        return True
    return bool(kept) and begins_anew(kind, start, calls, kept, values, needed) or once_out(kind, start, calls, kept, values, needed)


def cut_since(call, since, event):
    """The call as it stood from one event to the other: pending, if it was called before."""
    return cut(call, event) if call["called"] >= since else call | {"returned": PENDING}


def beginnings(kind, start, values, at):
    """The states that stand for all that the object may have held."""
    named = [*values, max(values, default=0) + 1]
    if kind == "register":
        return [start, *named]
    if kind == "mutex":
        return [None, *values]
    return [(), *((item,) for item in values)] if kind == "set" else [(), *(((at[0], value),) for value in named)]


def may_go_late(kind, call, values, at, later):
    """Whether a call may be left out of a core that begins at an event: of a key of which all is looked at, only if it is on another one,
    or if it was called when one value counts alone, and does not put that."""
    if at is not None and at[1]:
        is_late = later is not None and call["called"] > later[0] and not (call["op"] == "put" and call["args"][1] == later[1])
        return is_idle(kind, call) or call["args"][0] != at[0] or is_late
    return may_go(kind, call, values, at)


def may_stay_late(call, later):
    """Whether a call of such a core returned before one value counted alone, or puts or finds that."""
    returned = call["returned"]
    if returned is not PENDING and returned[0] <= later[0]:
        return True
    return call["op"] == "put" and call["args"][1] == later[1] or call["op"] == "get" and (returned is PENDING or returned[1] == later[1])


def check_late(kind, start, calls, core):
    """What is wrong with a core that begins at an event, if anything is."""
    since, event, kept, values, at = core["from"], core["event"], [k for k, _ in core["calls"]], set(core["values"]), core["key"]
    part = [cut_since(calls[k], since, event) for k in kept]
    if [c["returned"] is PENDING for c in part] != [pending for _, pending in core["calls"]]:
        return "another call is taken as pending"
    if any(calls[k]["called"] > event for k in kept) or kept != sorted(set(kept)) or kind == "set" and len(values) != 1:
        return "these are not its calls"
    if any(has_order(kind, state, part) for state in beginnings(kind, start, values, at)):
        return "its calls have an order"
    if (later := core["later"]) is not None and not (later[1] in values and all(may_stay_late(c, later) for c in part)):
        return "a call that it has may not be kept"
    others = [c for k, c in enumerate(calls) if k not in kept and c["called"] <= event]
    is_over = [c["returned"] is not PENDING and c["returned"][0] < since for c in others]
    if not all(over or may_go_late(kind, c, values, at, later) for c, over in zip(others, is_over)):
        return "a call that it needs is left out"
    return None


def check(kind, start, calls, core):
    """What is wrong with a core, if anything is."""
    if core["from"] is not None:
        return check_late(kind, start, calls, core)
    event, kept, values, at = core["event"], [k for k, _ in core["calls"]], set(core["values"]), core["key"]
    part = [cut(calls[k], event) for k in kept]
    if [c["returned"] is PENDING for c in part] != [pending for _, pending in core["calls"]]:
        return "another call is taken as pending"
    if any(calls[k]["called"] > event for k in kept) or kept != sorted(set(kept)):
        return "these are not its calls"
    if len(part) > MOST:
        return None
    if has_order(kind, start, part):
        return "its calls have an order"
    if gave_another(kind, part[0]):
        return None
    if not is_enough(kind, start, calls, kept, event, values, at):
        return "a call that it needs is left out"
    for less, earlier, fewer in smaller(kind, calls, kept, event, values, at):
        if is_enough(kind, start, calls, less, earlier, fewer, at) and not has_order(kind, start, [cut(calls[k], earlier) for k in less]):
            return f"{len(less)} calls are enough"
    return None


def sums(start, calls, first, get):
    """Of a get, counted from the start or from an earlier get: the value that is counted from, and what must and what may have been
    added and taken off before it."""
    base = start if first is None else first["returned"][1]
    must, may = [0, 0], [0, 0]
    for call in calls:
        if call["op"] == "add":
            size, down = abs(call["args"][0]), call["args"][0] < 0
            must[down] += size if precedes(call, get) and (first is None or precedes(first, call)) else 0
            may[down] += size if not precedes(get, call) and (first is None or not precedes(call, first)) else 0
    return base, must, may


def found(call):
    return call["op"] == "get" and call["returned"] is not PENDING and type(call["returned"][1]) is int


def sum_faults(kind, start, calls):
    """All gets of a counter whose reply is too small or too great, with what they are counted from, and the bound."""
    gets = [k for k, c in enumerate(calls) if kind == "counter" and found(c)]
    for g in gets:
        value = calls[g]["returned"][1]
        for f in [None] + [f for f in gets if precedes(calls[f], calls[g])]:
            base, must, may = sums(start, calls, None if f is None else calls[f], calls[g])
            if value < base + must[0] - may[1]:
                yield f, g, True, base, must[0], may[1], base + must[0] - may[1]
            if value > base - must[1] + may[0]:
                yield f, g, False, base, must[1], may[0], base - must[1] + may[0]


def answers(program, files):
    """What the program says of each object of the files."""
    said = subprocess.run([program, *files], capture_output=True, text=True, check=True).stdout
    told, fault = [], None
    for what, *words in (line.split() for line in said.splitlines()):
        if what == "sums":
            first, get, up, *numbers = words
            fault = None if first == "-" else int(first), int(get), up == "true", *map(int, numbers)
        elif what == "none":
            told, fault = told + [(None, fault)], None
        elif what == "core":
            told, fault = told + [({"event": int(words[0]), "from": None, "key": None, "later": None, "calls": [], "values": []}, fault)], None
        elif what == "from":
            told[-1][0]["from"] = int(words[0])
        elif what == "key":
            told[-1][0]["key"] = int(words[0]), words[1] == "true"
        elif what == "later":
            told[-1][0]["later"] = int(words[0]), int(words[1])
        elif what == "call":
            told[-1][0]["calls"].append((int(words[0]), words[1] == "true"))
        elif what == "value":
            told[-1][0]["values"].append(int(words[0]))
    return told


def has_earlier(calls, core):
    """Whether a call that precedes all of a core is on its items."""
    kept = [k for k, _ in core["calls"]]
    return any(any(item_count(call, item) for item in core["values"]) and all(precedes(call, calls[k]) for k in kept) for call in calls)


class Tally:
    """What was found of all objects."""

    def __init__(self):
        self.sizes, self.wrong, self.missed, self.orders = collections.Counter(), [], [], 0
        self.sums, self.pairs, self.refuted_counters, self.not_by_sums = 0, 0, 0, 0
        self.once_out, self.late, self.small = 0, 0, SMALL

    def add_sums(self, name, kind, start, calls, fault):
        """Of a counter whether a get is found exactly where there is one, and whether its sums are right."""
        faults = list(sum_faults(kind, start, calls))
        if fault is None and faults or fault is not None and fault not in faults:
            self.wrong.append(f"{name}: sums: {fault}: {faults[:5]}")
        self.sums += fault is not None
        self.pairs += fault is not None and fault[0] is not None
        if kind == "counter" and len(calls) <= self.small:
            has_one = has_order(kind, start, calls)
            self.refuted_counters += not has_one
            self.not_by_sums += not has_one and fault is None
            if has_one and fault is not None:
                self.wrong.append(f"{name}: sums: the whole has an order: {fault}")

    def add(self, name, kind, start, calls, core, fault):
        self.add_sums(name, kind, start, calls, fault)
        small = len(calls) <= self.small
        if core is None:
            if small and has_order(kind, start, calls):
                self.orders += 1
            elif small:
                self.missed.append(f"{name} ({kind}, {len(calls)} calls)")
            return
        self.sizes[len(core["calls"])] += 1
        self.late += core["from"] is not None
        self.once_out += kind in ("queue", "stack") and has_earlier(calls, core)
        fault = check(kind, start, calls, core)
        if small and has_order(kind, start, calls):
            fault = "the whole has an order"
        if fault:
            self.wrong.append(f"{name}: {fault}: {core}")

    def print(self):
        print("cores by their calls:", dict(sorted(self.sizes.items())))
        print("cores from a moment on at which each item was out:", self.once_out)
        print("cores that begin at an event:", self.late)
        print("objects with an order, without a core:", self.orders)
        print("objects without an order, without a core:", len(self.missed), *self.missed[:20], sep="\n  ")
        print("gets for whose reply the adds leave no room:", self.sums, "of which counted from an earlier get:", self.pairs)
        print("small counters without an order:", self.refuted_counters, "of which without such a get:", self.not_by_sums)
        print("wrong:", len(self.wrong), *self.wrong[:20], sep="\n  ")
        return 1 if self.wrong else 0


def random_call(chance, kind):
    value = chance.randrange(1, 4)
    ops = {
        "register": [("write", [value]), ("read", []), ("cas", [chance.randrange(3), value])],
        "counter": [("add", [1]), ("get", [])],
        "queue": [("enq", [value]), ("deq", [])],
        "stack": [("push", [value]), ("pop", [])],
        "set": [("add", [value]), ("remove", [value]), ("contains", [value])],
        "mutex": [("lock", []), ("unlock", []), ("try_lock", [])],
        "map": [("put", [value % 2, chance.randrange(3)]), ("get", [value % 2]), ("delete", [value % 2])],
    }
    return chance.choice(ops[kind])


def random_reply(chance, op, args):
    if op in ("write", "enq", "push", "put", "lock", "unlock") or op == "add" and chance.random() < 0.5:
        return '"ok"' if op != "add" else "true"
    if op in ("cas", "remove", "contains", "delete", "try_lock", "add"):
        return chance.choice(["true", "false"])
    return chance.choice(["1", "2", "3", "null"] if op in ("deq", "pop") else ["0", "1", "2"])


def random_counter(chance):
    """The text of a history of a counter with a start, adds of both signs, calls that stay pending, and a few replies replaced."""
    state = chance.choice([0, 0, 5, -3])
    lines, open_calls = [f'{{"event":"object","object":"x","kind":"counter","start":{state}}}\n'], {}
    numbers = chance.choice([[1], [1, 2, 4], [-1, 1, 3], [-2, -1, 5]])
    processes, errs = chance.choice([3, 5]), chance.choice([0, 0.06, 0.2])
    for _ in range(chance.randrange(10, chance.choice([2 * SMALL, 80]))):
        process = chance.randrange(processes)
        call = open_calls.get(process)
        if call is None:
            op, args = chance.choice([("add", [chance.choice(numbers)]), ("get", [])])
            open_calls[process] = call = {"op": op, "args": args, "reply": None, "stays": chance.random() < 0.03}
            shown = f',"args":{args}' if args else ""
            lines.append(f'{{"event":"call","process":{process},"object":"x","op":"{op}"{shown}}}\n')
        elif call["reply"] is None:
            state, call["reply"] = step("counter", state, process, call["op"], call["args"])
        elif not call["stays"]:
            del open_calls[process]
            reply = call["reply"]
            reply = '"ok"' if reply == "ok" else reply + (chance.choice([-2, -1, 1, 2]) if chance.random() < errs else 0)
            lines.append(f'{{"event":"return","process":{process},"object":"x","result":{reply}}}\n')
    return "".join(lines)


def random_items(chance):
    """The text of a history of a queue or a stack of a few items that is filled and emptied in turn by a few processes, with a few
    replies replaced or exchanged."""
    kind, put, take = chance.choice([("queue", "enq", "deq"), ("stack", "push", "pop")])
    lines, open_calls, state = [f'{{"event":"object","object":"x","kind":"{kind}"}}\n'], {}, ()
    items, processes, most, errs = chance.choice([1, 2, 3]), chance.choice([1, 2, 3]), chance.choice([1, 2, 4]), chance.choice([0.02, 0.05])
    fills, faulty = True, chance.randrange(8, 60)
    for number in range(chance.randrange(30, 2 * MOST_IN_TURN)):
        process = chance.randrange(processes)
        call = open_calls.get(process)
        if call is None:
            fills = not state or fills and len(state) < most
            op, args = (put, [chance.randrange(items)]) if fills or chance.random() < 0.1 else (take, [])
            open_calls[process] = {"op": op, "args": args, "reply": None}
            shown = f',"args":{args}' if args else ""
            lines.append(f'{{"event":"call","process":{process},"object":"x","op":"{op}"{shown}}}\n')
        elif call["reply"] is None:
            state, call["reply"] = step(kind, state, process, call["op"], call["args"])
        elif chance.random() < 0.99:
            del open_calls[process]
            reply = {"ok": '"ok"', "empty": "null"}.get(call["reply"], str(call["reply"]))
            if call["op"] == take and number > faulty and chance.random() < errs:
                reply = chance.choice([*map(str, range(items)), "null"])
            lines.append(f'{{"event":"return","process":{process},"object":"x","result":{reply}}}\n')
    return "".join(lines)


def random_history(chance, kind):
    """The text of a small history whose calls take effect in turn, with a few replies replaced."""
    lines, open_calls, events = [f'{{"event":"object","object":"x","kind":"{kind}"}}\n'], {}, chance.randrange(8, 2 * SMALL)
    state = {"register": 0, "counter": 0, "mutex": None}.get(kind, ())
    for _ in range(events):
        process = chance.randrange(1, 4)
        if process in open_calls:
            op, args, reply = open_calls.pop(process)
            lines.append(f'{{"event":"return","process":{process},"object":"x","result":{reply}}}\n')
            continue
        op, args = random_call(chance, kind)
        answer = step(kind, state, process, op, args)
        if answer is None:
            continue
        state, reply = answer
        text = {"ok": '"ok"', "empty": "null", True: "true", False: "false"}.get(reply, str(reply)) if not isinstance(reply, int) or isinstance(reply, bool) else str(reply)
        if kind == "counter" and op == "get" and chance.random() < 0.1:
            text = str(reply + 1)
        elif kind != "counter" and chance.random() < 0.12:
            text = random_reply(chance, op, args) if kind != "map" or op != "get" else chance.choice(["0", "1", "2", "null"])
        text = '"ok"' if kind == "counter" and op == "add" else text
        open_calls[process] = op, args, text
        shown = f',"args":{args}' if args else ""
        lines.append(f'{{"event":"call","process":{process},"object":"x","op":"{op}"{shown}}}\n')
    return "".join(lines)


def histories(words, folder):
    """The files to look at."""
    if words.random is None:
        return words.files
    chance, files = random.Random(words.seed), []
    kinds = ["register", "counter", "queue", "stack", "set", "mutex", "map"]
    for number in range(words.random):
        file = Path(folder) / f"{number}.jsonl"
        if words.counters or words.items:
            file.write_text(random_counter(chance) if words.counters else random_items(chance))
        else:
            file.write_text(random_history(chance, kinds[number % len(kinds)]))
        files.append(str(file))
    return files


def main():
    words = argparse.ArgumentParser(description=__doc__, formatter_class=argparse.RawDescriptionHelpFormatter)
    words.add_argument("--program")
    words.add_argument("--random", type=int)
    words.add_argument("--seed", type=int, default=1)
    words.add_argument("--counters", action="store_true")
    words.add_argument("--items", action="store_true")
    words.add_argument("files", nargs="*")
    asked = words.parse_args()
    with tempfile.TemporaryDirectory() as folder:
        program = asked.program
        if program is None:
            import build_unproved

            program = Path(folder) / "cores"
            build_unproved.build(program, BENCH / "cores.program")
        tally = Tally()
        tally.small = MOST_IN_TURN if asked.items else SMALL
        for file in histories(asked, folder):
            objects = read(Path(file).read_text())
            for (name, kind, start, calls), (core, fault) in zip(objects, answers(program, [file])):
                tally.add(f"{Path(file).name} {name}", kind, start, calls, core, fault)
    return tally.print()


if __name__ == "__main__":
    sys.exit(main())

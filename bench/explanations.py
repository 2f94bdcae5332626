#!/usr/bin/env python3
"""What `lincheck --explain` prints of a small history that is not linearizable, and what `lincheck --each` prints, by the
definitions alone.

    bench/explanations.py < HISTORY
    bench/explanations.py --compare PROGRAM FILE..
    bench/explanations.py --random COUNT PROGRAM
    bench/explanations.py --random-counters COUNT PROGRAM
    bench/explanations.py --write FOLDER PROGRAM

The runs of each object are all tried, so a history has few calls. The first object without a linearization is told with the
last calls of the first of its longest runs, and then the state after the run, the calls that could come next with what each would
answer there, and the calls that put or took the value that such a call asks for or should have found, each call with the lines on
which its events stand. Which calls alone have no order is for the program to find: its answer may name some, and then all orders
of these are tried, of which none may be one. Or it may name a get of a counter for whose reply the adds leave no room: then the sums
are made by the lines of the input, and have to leave none.
With --compare the answers of a program are compared with these, with --random those on so many random histories, each also with
what each of its objects is, with --random-counters those on so many of counters; with --write the cases below are written, for `crates/lin_tests/data`, with those calls of the
program's that stood the trial.
"""
import json
import random
import re
import subprocess
import sys
from pathlib import Path

PENDING = None
MOST_LISTED, MOST_ITEMS, MOST_TOUCHING = 16, 16, 8
CORE_HEAD = re.compile(r"(?:this call|these (\d+) calls)(?: on key (-?\d+))? alone (has|have) no order(?:, whatever (\S+) held before line (\d+))?:")
SUMS_HEAD = re.compile(r"no order gives (this call|the second of these calls) so (small|great) a reply:")
CORE_CALL = re.compile(r"  \d+ \S+ .* \((?:line|lines) (\d+)(?: and (\d+))?\)")
START = {"register": 0, "counter": 0, "queue": (), "stack": (), "set": (), "mutex": None, "map": ()}


def step(kind, state, process, op, args):
    """The next state and the reply, or None where there is no step."""
    if kind == "register":
        if op == "write":
            return args[0], "ok"
        if op == "read":
            return state, state
        return (args[1], True) if state == args[0] else (state, False)
    if kind == "counter":
        return (state + args[0], "ok") if op == "add" else (state, state)
    if kind == "queue":
        if op == "enq":
            return state + (args[0],), "ok"
        return (state[1:], state[0]) if state else (state, "empty")
    if kind == "stack":
        if op == "push":
            return (args[0],) + state, "ok"
        return (state[1:], state[0]) if state else (state, "empty")
    if kind == "set":
        there = args[0] in state
        if op == "add":
            return tuple(sorted(set(state) | {args[0]})), not there
        if op == "remove":
            return tuple(x for x in state if x != args[0]), there
        return state, there
    if kind == "mutex":
        if op == "lock":
            return (process, "ok") if state is None else None
        if op == "unlock":
            return (None, "ok") if state == process else None
        return (process, True) if state is None else (state, False)
    pairs = dict(state)
    if op == "put":
        pairs[args[0]] = args[1]
        return tuple(sorted(pairs.items())), "ok"
    if op == "get":
        return state, pairs.get(args[0], "empty")
    there = pairs.pop(args[0], None) is not None
    return tuple(sorted(pairs.items())), there


def same(a, b):
    return type(a) is type(b) and a == b


def read(text):
    """The objects in their order, each with its name, its kind, its start and its calls."""
    objects, order, open_calls, number = {}, [], {}, 0
    for place, line in enumerate(text.split("\n"), 1):
        if not line.strip():
            continue
        event = json.loads(line)
        what = event.get("event")
        if what == "object":
            kind = event["kind"]
            objects[event["object"]] = (kind, event.get("start", START[kind]), [])
            order.append(event["object"])
        elif what == "call":
            number += 1
            call = {"process": event["process"], "op": event["op"], "args": event.get("args", []), "called": number}
            call |= {"returned": PENDING, "lines": [place]}
            objects[event["object"]][2].append(call)
            open_calls[event["process"]] = call, objects[event["object"]]
        elif what == "return":
            number += 1
            result = event["result"]
            reply = "empty" if result is None else result
            call = open_calls.pop(event["process"])[0]
            call["returned"] = number, reply
            call["lines"].append(place)
        elif what == "fail":
            call, of = open_calls.pop(event["process"])
            of[2][:] = [x for x in of[2] if x is not call]
    return [(name, *objects[name]) for name in order]


def precedes(a, b):
    return a["returned"] is not PENDING and a["returned"][0] < b["called"]


def runs_from(kind, calls, state, run):
    """All runs that begin with this one, which leads to the state, in lexicographic order, each with its state."""
    yield run, state
    for c, call in enumerate(calls):
        if c in run or any(precedes(x, call) and a not in run for a, x in enumerate(calls)):
            continue
        answer = step(kind, state, call["process"], call["op"], call["args"])
        if answer is None or call["returned"] is not PENDING and not same(answer[1], call["returned"][1]):
            continue
        yield from runs_from(kind, calls, answer[0], run + [c])


def searched(kind, calls, start):
    """Whether an object has a linearization, its first longest run, and the state after it."""
    best, linear = None, False
    for run, state in runs_from(kind, calls, start, []):
        linear = linear or all(c in run for c, x in enumerate(calls) if x["returned"] is not PENDING)
        if best is None or len(run) > len(best[0]):
            best = run, state
    return linear, *best


def refuted(objects):
    """The first object without a linearization, its first longest run, and the state after it."""
    for name, kind, start, calls in objects:
        linear, *best = searched(kind, calls, start)
        if not linear:
            return name, kind, start, calls, *best
    return None


def each(text, answer=""):
    """A line for each object, and the exit status; with the lines of an answer that name calls that alone have no order."""
    told, lines, is_linear = {}, [], True
    for line in answer.splitlines():
        if ": " in line and not line.startswith(" "):
            told[last := line.partition(": ")[0]] = []
        else:
            told[last].append(line)
    for name, kind, start, calls in read(text):
        linear = searched(kind, calls, start)[0]
        core = [] if linear else told.get(name, [])
        is_right = is_core(name, kind, start, calls, core)
        lines += [f"{name}: {'linearizable' if linear else 'not linearizable'}", *(core if is_right else ["no core", *core])]
        is_linear = is_linear and linear
    return "".join(line + "\n" for line in lines), 0 if is_linear else 1


def shown(value):
    return {True: "true", False: "false"}[value] if isinstance(value, bool) else str(value)


def call_text(call):
    return f"{call['op']}({','.join(map(str, call['args']))})"


def recorded(call, is_pending=False):
    """The reply and the lines of both events; of a pending call, or one that is taken so, the line of its call."""
    if is_pending or call["returned"] is PENDING:
        return f" (line {call['lines'][0]})"
    return f" = {shown(call['returned'][1])} (lines {call['lines'][0]} and {call['lines'][1]})"


def listed(texts):
    more = f", .. and {len(texts) - MOST_ITEMS} more" if len(texts) > MOST_ITEMS else ""
    return ", ".join(texts[:MOST_ITEMS]) + more


def state_text(kind, state, keys):
    if kind in ("register", "counter"):
        return str(state)
    if kind == "mutex":
        return "free" if state is None else f"held by {state}"
    if kind == "map":
        return "{" + listed([f"{k}: {v}" for k, v in state if k in keys]) + "}"
    text = listed([str(x) for x in state])
    return "{" + text + "}" if kind == "set" else f"[{text}]"


def asked_of(kind, call, state):
    """What the call asks for in this state: a value, or a key and its value; where it found nothing, what was there. None where it
    asks for none."""
    op, args = call["op"], call["args"]
    reply = None if call["returned"] is PENDING else call["returned"][1]
    is_number = isinstance(reply, int) and not isinstance(reply, bool)
    found_nothing = reply == "empty" or reply is False
    if op == "cas" or kind == "set":
        return args[0]
    if op == "get" and kind == "map" and is_number:
        return args[0], reply
    if op in ("get", "delete") and kind == "map":
        there = dict(state).get(args[0])
        return (args[0], there) if found_nothing and there is not None else None
    if op in ("deq", "pop") and found_nothing:
        return state[0] if state else None
    return reply if op in ("deq", "pop", "read") and is_number else None


def did(kind, call, asked, reply):
    """Whether the call, which has this reply or is pending, put or took what is asked for."""
    op, args = call["op"], call["args"]
    may_change = reply is PENDING or reply is not False
    if op in ("enq", "push", "write"):
        return "put" if args[0] == asked else None
    if op in ("deq", "pop"):
        return "taken" if reply is not PENDING and same(reply, asked) else None
    if op == "cas":
        return "put" if args[1] == asked and may_change else None
    if kind == "set" and op in ("add", "remove"):
        return {"add": "put", "remove": "taken"}[op] if args[0] == asked and may_change else None
    if op == "put":
        return "put" if tuple(args) == asked else None
    if op == "delete":
        return "taken" if args[0] == asked[0] and may_change else None
    return None


def about(word, c, calls, run):
    call = calls[c]
    place = "in the run" if c in run else "not in the run"
    return f"  {word} by {call['process']}: {call_text(call)}{recorded(call)}, {place}\n"


def known(kind, c, calls, run, state, replies):
    """What is known of call c, which could come next after the run: of the replies there `replies` has those of the run."""
    call = calls[c]
    if kind == "mutex":
        held = None
        for r in run:
            if calls[r]["op"] == "unlock":
                held = None
            elif held is None:
                held = r
        return "" if held is None else about("held", held, calls, run)
    asked = asked_of(kind, call, state)
    if asked is None:
        return ""
    recorded_replies = [PENDING if x["returned"] is PENDING else x["returned"][1] for x in calls]
    found = [(did(kind, x, asked, replies.get(a, recorded_replies[a])), a) for a, x in enumerate(calls) if a != c]
    found = [(word, a) for word, a in found if word]
    value = f"{asked[0]}: {asked[1]}" if isinstance(asked, tuple) else str(asked)
    text = "" if any(word == "put" for word, _ in found) else f"  no call put {value}\n"
    text += "".join(about(word, a, calls, run) for word, a in found[:MOST_TOUCHING])
    return text + (f"  .. and {len(found) - MOST_TOUCHING} more\n" if len(found) > MOST_TOUCHING else "")


def has_order(kind, start, calls):
    """Whether some order of the calls has each of them that returned."""
    return any(all(c in run for c, x in enumerate(calls) if x["returned"] is not PENDING) for run, _ in runs_from(kind, calls, start, []))


def core_lines(answer):
    """The lines of an answer that name calls that alone have no order, or a get for whose reply the adds leave no room."""
    lines = answer.split("\n")
    end = next((place for place, line in enumerate(lines) if line.startswith("longest run: ")), 1)
    return lines[1:end]


WRITES = {"write": 0, "cas": 1, "enq": 0, "push": 0}


def values_of(call):
    """The values that a call writes, puts in or returned with, as it is told."""
    at = WRITES.get(call["op"])
    written = [] if at is None else [call["args"][at]]
    got = [] if call["returned"] is PENDING or call["op"] not in ("read", "deq", "pop") else [call["returned"][1]]
    return set(written + [value for value in got if type(value) is int])


def is_of(call, item):
    """How often a call put an item into a queue or a stack: -1 where it took it out."""
    if call["op"] in ("enq", "push"):
        return int(call["args"][0] == item)
    return -int(call["op"] in ("deq", "pop") and call["returned"] is not PENDING and call["returned"][1] == item)


def earlier_calls(kind, core, calls):
    """The calls on the items of a core that returned before the first of it was called, of a queue or a stack."""
    values, line = set().union(*map(values_of, core)), core[0]["lines"][0]
    back = [call for call in calls if call["returned"] is not PENDING and call["lines"][1] < line]
    return [call for call in back if kind in ("queue", "stack") and values_of(call) & values]


def begin(kind, core):
    """The line from which on the other calls matter: 0, or that of a first call which gives anew, and is the only one or returned before
    the second."""
    first, *more = core
    gives = first["op"] in ("write", "put") or kind == "set" and first["op"] == "add" and first["returned"] is not PENDING and first["returned"][1] is True
    is_before = not more or first["returned"] is not PENDING and first["lines"][1] < more[0]["lines"][0]
    return first["lines"][0] if gives and is_before else 0


def has_step(call):
    """Whether the reply of a call is of its operation's shape: else no order has it."""
    reply = call["returned"][1]
    if call["op"] in ("write", "enq", "push"):
        return reply == "ok"
    return type(reply) is bool if call["op"] in ("cas", "remove", "contains") else True


def gave_another(kind, call):
    """Whether a call returned with a reply that its operation never gives."""
    if call["returned"] is PENDING:
        return False
    op, reply = call["op"], call["returned"][1]
    if op in ("write", "enq", "push", "lock", "unlock", "put") or (kind, op) == ("counter", "add"):
        return reply != "ok"
    if op == "read" or (kind, op) == ("counter", "get"):
        return type(reply) is not int
    return not (reply == "empty" or type(reply) is int) if op in ("deq", "pop", "get") else type(reply) is not bool


def others(kind, core, calls, since, until):
    """What is said of the other calls that were called up to a line and not over before another, or that it is not so."""
    rest = [call for call in calls if call["lines"][0] <= until and call["called"] not in {one["called"] for one in core}]
    rest = [call for call in rest if call["returned"] is PENDING or call["lines"][1] > since and has_step(call)]
    values = set().union(*map(values_of, core))
    if kind in ("queue", "stack"):
        return "puts or takes such an item" if not any(values_of(call) & values for call in rest) else None
    if kind == "register" and "cas" not in [call["op"] for call in core]:
        swaps = [call for call in rest if call["op"] == "cas" and call["args"][0] != call["args"][1]]
        swapped = {call["args"][1] for call in swaps if call["returned"] is PENDING or call["returned"][1] is True}
        written = swapped | {call["args"][0] for call in rest if call["op"] == "write"}
        return "writes such a value" if not written & values else None
    if kind == "counter":
        return "changes the counter" if all(call["op"] == "get" or call["args"] == [0] for call in rest) else None
    if kind == "set":
        items = {call["args"][0] for call in core}
        changing = [call for call in rest if call["args"][0] in items and call["op"] != "contains" and (call["returned"] is PENDING or call["returned"][1] is not False)]
        return "adds or removes such an item" if not changing else None
    return "helps"


def sums_lines(name, start, gets, calls):
    """The lines that say how small or how great the reply of the last of these gets of a counter can be, counted from the start or from
    the first of them; nothing where it can be what it is."""
    *firsts, get = gets
    after, since = (firsts[0]["lines"][1], firsts[0]["lines"][0]) if firsts else (0, 0)
    called, returned = get["lines"]
    is_right = all(x["op"] == "get" and x["returned"] is not PENDING and type(x["returned"][1]) is int for x in gets) and after < called
    if not is_right:
        return []
    adds = [(x["args"][0], x["lines"][0], x["lines"][1] if x["returned"] is not PENDING else None) for x in calls if x["op"] == "add"]
    must = [(n, back) for n, line, back in adds if back is not None and back < called and line > after]
    may = [n for n, line, back in adds if line < returned and not (back is not None and back < since)]
    value, base = get["returned"][1], firsts[0]["returned"][1] if firsts else start
    must_when = f"were called after line {after} and returned before line {called}" if firsts else f"returned before line {called}"
    may_when = f"were called before line {returned}" + (f" and did not return before line {since}" if firsts else "")
    for size, sign, other, side, other_side, end in [("small", 1, "-", "above", "below", "at least"), ("great", -1, "+", "below", "above", "at most")]:
        added, taken = sum(n * sign for n, _ in must if n * sign > 0), sum(-n * sign for n in may if n * sign < 0)
        bound = base + sign * (added - taken)
        if (bound - value) * sign > 0:
            return [
                f"no order gives {'the second of these calls' if firsts else 'this call'} so {size} a reply:",
                *(f"  {x['process']} {name} {call_text(x)}{recorded(x)}" for x in gets),
                f"  {base} {'by the first' if firsts else 'at the start'}",
                f"  {'+' if sign > 0 else '-'} {added} by adds {side} 0 that {must_when}",
                f"  {other} {taken} by adds {other_side} 0 that {may_when}",
                f"  = {bound} {end}",
            ]
    return []


def states_before(kind, start, core):
    """States that stand for all that an object may have held, as far as these calls on one key or item of it tell: nothing, each value
    that they name, and another one."""
    replies = {call["returned"][1] for call in core if call["returned"] is not PENDING and type(call["returned"][1]) is int}
    named = {value for call in core for value in call["args"]} | replies
    named.add(max(named, default=0) + 1)
    if kind == "register":
        return [start, *named]
    if kind == "mutex":
        return [None, *{call["process"] for call in core}]
    held = {call["args"][0] for call in core}
    return [(), *((item,) for item in held)] if kind == "set" else [(), *(((key, value),) for key in held for value in named)]


def is_core(name, kind, start, calls, lines):
    """Whether the lines name calls of the object in the order of their call events, each as it stood after some event, which alone have
    no order; the key that they are on; and what no other call does."""
    if not lines:
        return True
    by_line = {call["lines"][0]: call for call in calls}
    if head := SUMS_HEAD.fullmatch(lines[0]):
        gets = [CORE_CALL.fullmatch(line) for line in lines[1 : 2 if head[1] == "this call" else 3]]
        return kind == "counter" and None not in gets and lines == sums_lines(name, start, [by_line[int(line[1])] for line in gets], calls)
    *lines, end = lines
    head, told = CORE_HEAD.fullmatch(lines[0]), [CORE_CALL.fullmatch(line) for line in lines[1:]]
    if head is None or None in told:
        return False
    core, until, after, text, first_line = [], 0, [], [], int(head[5] or 0)
    for line in told:
        call = by_line[int(line[1])]
        is_pending = line[2] is None
        text.append(f"  {call['process']} {name} {call_text(call)}{recorded(call, is_pending)}")
        core.append(call | ({"returned": PENDING} if is_pending else {}))
        until = max(until, call["called"], 0 if is_pending else call["returned"][0])
        is_open = call["lines"][0] < first_line
        after += [call["returned"][0]] if is_pending and call["returned"] is not PENDING and not is_open else []
        if is_open and not is_pending:
            return False
    keys = {call["args"][0] for call in core} if kind in ("map", "set") else set()
    key = str(*keys) if len(keys) == 1 else None
    is_told_so = text == lines[1:] and (head[1], head[3]) == ((None, "has") if len(core) == 1 else (str(len(core)), "have")) and head[2] == key
    last = max(max(call["lines"][0], call["lines"][-1] if call["returned"] is not PENDING else 0) for call in core)
    since, ending = begin(kind, core), ""
    if earlier := earlier_calls(kind, core, calls):
        since = core[0]["lines"][0]
        ending = f", and before line {since} each was taken as often as it was put"
        is_even = all(sum(is_of(call, item) for call in earlier) == 0 for item in set().union(*map(values_of, core)))
        is_told_so &= is_even or any(gave_another(kind, call) for call in core)
    if first_line:
        since, ending = first_line, ""
        is_told_so &= head[4] == ("it" if key else name)
    lines_told = f"from line {since} to line {last}" if since else f"up to line {last}"
    told_of_others = f"no other call {lines_told} {others(kind, core, calls, since, last)}{ending}"
    if any(gave_another(kind, call) for call in core):
        told_of_others = f"no other call up to line {last} helps"
    is_told_so = is_told_so and end == told_of_others
    is_in_order = [call["called"] for call in core] == sorted({call["called"] for call in core})
    return is_told_so and is_in_order and all(until < returned for returned in after) and not any(
        has_order(kind, state, core) for state in (states_before(kind, start, core) if first_line else [start])
    )


def explained(text, core=()):
    """The whole answer, with its explanation, and with these lines that name calls that alone have no order."""
    name, kind, start, calls, run, state = refuted(read(text))
    if not is_core(name, kind, start, calls, core):
        return "no core:\n" + "\n".join(core)
    out = "".join(line + "\n" for line in [f"not linearizable: {name}", *core]) + f"longest run: {len(run)} of {len(calls)} calls\n"
    before = len(run) - MOST_LISTED
    out += f".. {before} {'call' if before == 1 else 'calls'} before\n" if before > 0 else ""
    here, replies = start, {}
    for place, c in enumerate(run):
        call = calls[c]
        here, replies[c] = step(kind, here, call["process"], call["op"], call["args"])
        mark = " completed" if call["returned"] is PENDING else ""
        if place >= before:
            out += f"{place + 1} {call['process']} {name} {call_text(call)} = {shown(replies[c])}{mark}\n"
    left = [c for c in range(len(calls)) if c not in run]
    minimal = [c for c in left if not any(precedes(calls[a], calls[c]) for a in left)]
    keys = {calls[c]["args"][0] for c in minimal} if kind == "map" else set()
    out += f"after the run: {name} = {state_text(kind, state, keys)}\n"
    for c in minimal:
        call = calls[c]
        answer = step(kind, state, call["process"], call["op"], call["args"])
        would = "it cannot be done here" if answer is None else f"here it would be {shown(answer[1])}"
        out += f"next {call['process']} {name} {call_text(call)}{recorded(call)}: {would}\n" + known(kind, c, calls, run, state, replies)
    return out


def history(kind, events, start=None, format_2=False, line_end="\n"):
    """The text of a history of one object: `1 enq 3` is a call, `1 = ok` a return, `1 fail` a failure, `1 info` an end, '' a
    blank line; what begins with a brace stands as it is."""
    name = {"register": "x", "counter": "n", "queue": "q", "stack": "s", "set": "e", "mutex": "m", "map": "d"}[kind]
    lines = ['{"format":2}'] if format_2 else []
    declared = {"event": "object", "object": name, "kind": kind}
    lines.append(json.dumps(declared | ({} if start is None else {"start": start}), separators=(",", ":")))
    for event in events:
        words = event.split()
        if not words or event.startswith("{"):
            lines.append(event)
            continue
        process, what, *rest = words
        line = {"event": "call", "process": int(process), "object": name}
        if what == "=":
            line |= {"event": "return", "result": json.loads(rest[0]) if rest[0] != "ok" else "ok"}
        elif what in ("fail", "info"):
            line |= {"event": what}
        else:
            line |= {"op": what} | ({"args": [int(x) for x in rest]} if rest else {})
        lines.append(json.dumps(line, separators=(",", ":")))
    return line_end.join(lines) + line_end


CASES = {
    "register_read_of_an_old_value": history("register", ["1 write 1", "1 = ok", "1 write 2", "1 = ok", "2 read", "2 = 1"]),
    "register_read_of_a_value_that_nobody_wrote": history("register", ["1 write 1", "1 = ok", "2 read", "3 read", "2 = 7", "3 = 1"], 5),
    "register_two_compare_and_sets_of_one_value": history(
        "register", ["1 cas 0 1", "2 cas 0 2", "1 = true", "2 = true", "3 read", "3 = 2"]),
    "counter_that_lost_an_addition": history("counter", ["1 add 2", "2 add 3", "1 = ok", "2 = ok", "3 get", "3 = 3"]),
    "counter_get_that_goes_back": history(
        "counter",
        ["1 add 3", "1 = ok", "2 add 5", "2 = ok", "1 add 1", "2 add 2", "1 = ok", "2 = ok", "1 add 4", "1 = ok", "2 add -1", "2 = ok",
         "3 add 6", "1 get", "1 = 20", "4 add -2", "2 get", "2 = 14", "3 = ok"]),
    "counter_get_of_more_than_was_added": history(
        "counter",
        [e for n in range(1, 7) for e in (f"1 add {n}", "1 = ok")] + ["2 add 8", "2 info", "3 add -3", "4 get", "3 = ok", "4 = 35", "1 add 9"], 5, True),
    "counter_get_of_less_than_was_added": history(
        "counter", [e for n in range(1, 8) for e in (f"1 add {n}", "1 = ok")] + ["2 add -4", "3 get", "3 = 20", "", "2 = ok"], -3),
    "queue_item_out_of_turn": history(
        "queue", ["1 enq 3", "1 = ok", "1 enq 1", "1 = ok", "2 deq", "2 = 1", "3 deq", "3 = 3"]),
    "queue_item_taken_twice": history(
        "queue", ["1 enq 7", "1 = ok", "4 deq", "4 = 7", "1 enq 3", "1 = ok", "2 deq", "3 deq", "2 = 7", "3 = 7"]),
    "queue_with_twenty_items_and_a_failure": history(
        "queue", [e for n in range(20) for e in (f"1 enq {n}", "1 = ok")] + ["", "2 deq", "2 fail", "2 deq", "2 = null"], None, True),
    "stack_pop_of_what_was_popped": history(
        "stack", ["1 push 1", "1 = ok", "1 push 2", "1 = ok", "2 pop", "2 = 2", "3 pop", "2 pop", "2 = 2"]),
    "set_member_that_was_removed": history(
        "set", ["1 add 4", "1 = true", "2 remove 4", "2 = true", "1 add 1", "1 = true", "3 contains 4", "3 = true"]),
    "set_member_added_twice": history("set", ["1 add 1", "1 = true", "2 add 1", "3 add 2", "2 = true", "3 = false"]),
    "mutex_held_by_another": history(
        "mutex", ["1 lock", "1 = ok", "2 lock", "3 try_lock", "2 = ok", "3 = true", "1 unlock", "1 = ok"]),
    "mutex_unlocked_by_who_does_not_hold_it": history("mutex", ["1 lock", "1 = ok", "2 unlock", "2 = ok"]),
    "map_value_of_another_key": history(
        "map", ["1 put 1 5", "1 = ok", "1 put 2 7", "1 = ok", "2 get 1", "2 = 7", "3 get 2", "3 = 7"]),
    "map_value_that_was_deleted": history(
        "map", ["1 put 3 5", "1 = ok", "2 delete 3", "2 = true", "1 put 4 6", "1 = ok", "3 get 3", "4 put 3 8", "3 = 5"]),
    "register_write_that_was_called_too_late": history(
        "register", ["1 write 7", "1 fail", "", "2 read", "3 write 8", "2 = 7", "", "4 write 7", "5 read"], None, True),
    "counter_between_failures_and_an_end": history(
        "counter", ["1 add 4", "1 fail", "1 add 2", "2 add 1", "2 fail", "1 = ok", "3 add 8", "3 info", "2 get", "2 = 4"], None, True),
    "queue_with_carriage_returns_and_blank_lines": history(
        "queue",
        ["", "1 enq 5", " \t", "1 = ok", '{"event":"object","object":"x","kind":"register"}', "2 deq", "", "2 = 5",
         '{"event":"call","process":9,"object":"x","op":"read"}', "3 deq", "4 enq 6", "", "3 = 5", "1 deq"],
        line_end="\r\n"),
    "queue_item_that_a_pending_call_took": history(
        "queue", ["1 enq 1", "1 = ok", "1 enq 2", "1 = ok", "2 deq", "3 deq", "3 = 2", "4 deq", "4 = 1"]),
    "stack_pop_that_found_nothing": history("stack", ["1 push 1", "1 = ok", "1 push 2", "1 = ok", "2 pop", "2 = null"]),
    "set_member_that_was_not_found": history("set", ["1 add 4", "1 = true", "2 remove 4", "2 = false", "3 add 4", "3 = true"]),
    "map_key_deleted_twice_with_a_put_that_is_found_later": history(
        "map",
        ["1 put 7 5", "1 = ok", "2 put 7 70", "1 delete 7", "1 = true", "3 delete 7", "3 = true", "1 put 7 6", "1 = ok", "1 delete 7", "1 = true"]
        + ["3 get 7", "3 = 70", "2 = ok"],
    ),
    "map_key_that_was_not_found": history("map", ["1 put 3 5", "1 = ok", "1 put 4 6", "1 = ok", "2 get 3", "2 = null"]),
    "map_key_that_was_not_there_to_delete": history("map", ["1 put 3 5", "1 = ok", "1 put 3 6", "1 = ok", "2 delete 3", "2 = false"]),
    "queue_run_of_sixteen_calls": history("queue", [e for n in range(16) for e in (f"1 enq {n}", "1 = ok")] + ["2 deq", "2 = 99"]),
    "queue_run_of_seventeen_calls": history("queue", [e for n in range(17) for e in (f"1 enq {n}", "1 = ok")] + ["2 deq", "2 = 99"]),
    "register_written_by_many": history(
        "register", [e for p in range(1, 11) for e in (f"{p} write 5", f"{p} = ok")] + ["1 write 6", "1 = ok", "2 read", "2 = 5"]),
}


def differs(program, text):
    """Whether the program tells otherwise what each object is, or explains the history otherwise, by one worker or by four; an
    explanation of one that is linearizable is passed over."""
    for options in ([], ["--explain"]):
        ran = subprocess.run([program, "--each", *options], input=text.encode(), capture_output=True)
        answer = ran.stdout.decode()
        wanted = each(text, answer if options else "")
        if (answer, ran.returncode) != wanted:
            print(f"differs, each:\n{text}---\n{answer}---\n{wanted[0]}", end="")
            return True
    if refuted(read(text)) is None:
        return False
    for workers in ("1", "4"):
        ran = subprocess.run([program, "--explain", "--workers", workers], input=text.encode(), capture_output=True)
        answer = ran.stdout.decode()
        wanted = explained(text, core_lines(answer))
        if answer != wanted:
            print(f"differs, {workers} workers:\n{text}---\n{answer}---\n{wanted}", end="")
            return True
    return False


OF_EACH = {
    "second_of_three": "".join([
        history("queue", ["1 enq 1", "1 = ok", "2 deq", "2 = 1"]),
        history("register", ["1 write 1", "1 = ok", "2 read", "2 = 0", "3 read"]),
        history("set", ["5 add 1", "4 remove 1", "4 = true"]).replace("\n", "\n\n"),
    ]),
    "all": history("stack", ["1 push 1", "1 = ok"]) + history("counter", ["2 get", "2 = 3"], 3),
    "none": "".join([
        history("mutex", ["1 lock", "1 = ok", "2 unlock", "2 = ok"]),
        history("map", ["1 put 1 2", "1 = ok", "3 get 1", "3 = 3"]),
    ]),
    "no_object": "",
}
MANY_RUNS = history("register", [f"{p} write {p}" for p in range(1, 9)] + [f"{p} = ok" for p in range(1, 9)] + ["9 read", "9 = 99"])
# Within a limit of 3 the first object is undecided; the other has no more than 3 runs, and so is not.
WITHIN_3 = {
    "undecided_and_refuted": MANY_RUNS + history("queue", ["1 deq", "1 = 4"]),
    "undecided_and_linearizable": MANY_RUNS + history("mutex", ["1 lock", "1 = ok"]),
}


def within_3(text):
    """The same as `each`, with the first object undecided."""
    answer, _ = each(text)
    lines = answer.splitlines(True)
    lines[0] = lines[0].partition(":")[0] + ": undecided\n"
    return "".join(lines), 1 if ": not linearizable\n" in "".join(lines) else 3


def compare(program, texts):
    wrong = sum(differs(program, text) for text in texts)
    print(f"{wrong} differ")
    return wrong


def random_counter(seed):
    """A history of a counter and nine to eleven calls, of which two overlap: mostly adds, of both signs, with a get or two that err."""
    choose = random.Random(seed)
    start = choose.choice([None, 4, -2])
    events, state, open_calls, left = [], start or 0, {}, choose.randint(9, 11)
    while left or open_calls:
        process = choose.randint(1, 3)
        if process not in open_calls and left and len(open_calls) < 2:
            left -= 1
            op = "get" if left < 3 else "add"
            open_calls[process] = op, [choose.choice([-1, 1, 2, 3])] if op == "add" else []
            events.append(" ".join([str(process), op, *map(str, open_calls[process][1])]))
        elif process in open_calls:
            op, args = open_calls.pop(process)
            state, reply = step("counter", state, process, op, args)
            if choose.random() < 0.05:
                events.append(f"{process} info")
                open_calls[process] = None
                break
            events.append(f"{process} = {reply if op == 'add' else reply + choose.choice([-3, -1, 0, 0, 0, 1, 3])}")
        if choose.random() < 0.1:
            events.append("")
    return history("counter", events, start, True, choose.choice(["\n", "\r\n"]))


OPERATIONS = {
    "register": [("write", 1), ("read", 0), ("cas", 2)], "counter": [("add", 1), ("get", 0)], "queue": [("enq", 1), ("deq", 0)],
    "stack": [("push", 1), ("pop", 0)], "set": [("add", 1), ("remove", 1), ("contains", 1)],
    "mutex": [("lock", 0), ("unlock", 0), ("try_lock", 0)], "map": [("put", 2), ("get", 1), ("delete", 1)],
}


def random_history(seed):
    """A history of one object and 3 to 7 calls, with replies from a walk that now and then errs, failures and blank lines."""
    choose = random.Random(seed)
    kind = choose.choice(sorted(OPERATIONS))
    events, state, open_calls, left = [], START[kind], {}, choose.randint(3, 7)
    while left or open_calls:
        if choose.random() < 0.15:
            events.append(choose.choice(["", " ", "\t"]))
        process = choose.randint(1, 4)
        if process not in open_calls and left:
            left -= 1
            op, count = choose.choice(OPERATIONS[kind])
            open_calls[process] = op, [choose.randint(0, 2) for _ in range(count)]
            events.append(" ".join([str(process), op, *map(str, open_calls[process][1])]))
        elif process in open_calls:
            op, args = open_calls.pop(process)
            answer = step(kind, state, process, op, args)
            if choose.random() < 0.1:
                events.append(f"{process} fail")
            elif choose.random() < 0.1 and not left:
                continue
            elif answer is None or choose.random() < 0.2:
                events.append(f"{process} = {choose.choice(['ok', 'true', 'false', 'null', '0', '1', '2'])}")
            else:
                state, reply = answer
                reply = "null" if reply == "empty" else reply
                events.append(f"{process} = {shown(reply)}")
    return history(kind, events, None, True, choose.choice(["\n", "\r\n"]))


def write(folder, program):
    for name, text in CASES.items():
        answer = subprocess.run([program, "--explain"], input=text.encode(), capture_output=True).stdout.decode()
        for workers in (1, 4):
            base = Path(folder) / f"explained_{name}_by_{workers}"
            base.with_suffix(".jsonl").write_bytes(text.encode())
            base.with_suffix(".answer").write_text(explained(text, core_lines(answer)))
            base.with_suffix(".status").write_text("1\n")
            base.with_suffix(".options").write_text(f"--workers {workers}\n--explain\n")
    for name, text in OF_EACH.items():
        answer = subprocess.run([program, "--each", "--explain"], input=text.encode(), capture_output=True).stdout.decode()
        base = Path(folder) / f"each_object_explained_{name}"
        told, status = each(text, answer)
        base.with_suffix(".jsonl").write_text(text)
        base.with_suffix(".answer").write_text(told)
        base.with_suffix(".status").write_text(f"{status}\n")
        base.with_suffix(".options").write_text("--each\n--explain\n")
    for name, text in (OF_EACH | WITHIN_3).items():
        base = Path(folder) / f"each_object_{name}"
        answer, status = within_3(text) if name in WITHIN_3 else each(text)
        base.with_suffix(".jsonl").write_text(text)
        base.with_suffix(".answer").write_text(answer)
        base.with_suffix(".status").write_text(f"{status}\n")
        base.with_suffix(".options").write_text("--each\n" + ("--limit 3\n" if name in WITHIN_3 else ""))


def main():
    if sys.argv[1:2] == ["--write"]:
        write(*sys.argv[2:4])
    elif sys.argv[1:2] == ["--compare"]:
        texts = (Path(file).read_bytes().decode() for file in sys.argv[3:])
        sys.exit(1 if compare(sys.argv[2], texts) else 0)
    elif sys.argv[1:2] == ["--random"]:
        sys.exit(1 if compare(sys.argv[3], map(random_history, range(int(sys.argv[2])))) else 0)
    elif sys.argv[1:2] == ["--random-counters"]:
        sys.exit(1 if compare(sys.argv[3], map(random_counter, range(int(sys.argv[2])))) else 0)
    else:
        print(explained(sys.stdin.buffer.read().decode()), end="")


if __name__ == "__main__":
    main()

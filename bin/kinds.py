"""What a call on each kind of object does, as docs/FORMAT.md tells, and the orders of a few calls. Nothing here is the program's."""
import copy
from collections import deque

from histories import shown

NEVER, NO_STEP = float("inf"), object()  # the line of a return that is not there; what a call answers that cannot be done
MOST = 200_000  # calls that are looked at


def begin(of):
    """The state in which an object starts."""
    made = {"queue": deque(), "stack": [], "set": set(), "mutex": [None], "map": {}}
    return made.get(of["kind"], [int(of["start"] or 0)])


def beginnings(of, calls):
    """The states that stand for all that an object may have held, as far as these calls on one key or item of it tell: nothing, each value
    that they name, and another one."""
    replies = [int(call.reply) for call in calls if call.reply and call.reply.lstrip("-").isdigit()]
    named = {value for call in calls for value in call.args} | set(replies)
    named |= {max(named, default=0) + 1}
    if of["kind"] == "register":
        return [begin(of), *([value] for value in named)]
    if of["kind"] == "mutex":
        return [[None], *([process] for process in {call.process for call in calls})]
    held = {call.args[0] for call in calls}
    return [set(), held] if of["kind"] == "set" else [{}, *({key: value} for key in held for value in named)]


def do(kind, it, call):
    """Does a call on a state. Answers its reply, or NO_STEP where it cannot be done there."""
    op, first = call.op, call.args[0] if call.args else None
    if kind == "register":
        was = it[0]
        if op == "write" or (op == "cas" and was == first):
            it[0] = call.args[-1]
        return {"write": "ok", "read": was, "cas": was == first}[op]
    if kind == "counter":
        it[0] += first or 0
        return it[0] if op == "get" else "ok" if -(2**63) <= it[0] < 2**63 else NO_STEP
    if op in ("enq", "push"):
        it.append(first)
        return "ok"
    if op in ("deq", "pop"):
        return (it.popleft() if op == "deq" else it.pop()) if it else None
    if kind == "set":
        was = first in it
        if op != "contains":
            it.add(first) if op == "add" else it.discard(first)
        return not was if op == "add" else was
    if kind == "mutex":
        if op == "try_lock" and it[0] is not None:
            return False
        if it[0] != (call.process if op == "unlock" else None):
            return NO_STEP
        it[0] = None if op == "unlock" else call.process
        return op == "try_lock" or "ok"
    if op == "put":
        it[first] = call.args[1]
        return "ok"
    return it.get(first) if op == "get" else it.pop(first, None) is not None


def fits(call, reply):
    """Whether the call answered so; a pending one may have answered anything."""
    return reply is not NO_STEP and call.reply in (None, shown(reply))


def frozen(kind, state):
    return frozenset(state.items()) if kind == "map" else frozenset(state) if kind == "set" else tuple(state)


def try_all(of, calls, start=None):
    """The length of a longest run of these calls from a state on, and whether one has all that are completed. None where there is too
    much to try."""
    kind, completed = of["kind"], {at for at, call in enumerate(calls) if call.returned < NEVER}
    seen, left, longest, has_order = set(), [(frozenset(), begin(of) if start is None else start)], 0, False
    while left and len(seen) * len(calls) <= MOST:
        done, state = left.pop()
        longest, has_order = max(longest, len(done)), has_order or completed <= done
        rest = [at for at in range(len(calls)) if at not in done]
        first_return = min((calls[at].returned for at in rest), default=NEVER)
        for at in rest:
            after = copy.copy(state)
            if calls[at].line < first_return and fits(calls[at], do(kind, after, calls[at])):
                key = done | {at}, frozen(kind, after)
                if key not in seen:
                    seen.add(key)
                    left.append((key[0], after))
    return None if left else (longest, has_order)

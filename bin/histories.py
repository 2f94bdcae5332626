"""Histories that the program took, and where in them the calls are that an answer names."""
import json
from collections import defaultdict, deque
from dataclasses import dataclass, field
from typing import Optional

from values import values_in


@dataclass
class Call:
    """A call of the history: its process, its object, its operation, the lines of its events, and its reply as it is printed."""

    process: int
    object: str
    op: str
    args: list
    line: int
    returned: Optional[int] = None
    reply: Optional[str] = None


@dataclass
class History:
    """The objects of a text, its calls without those that failed, and the values for which numbers stand in it."""

    objects: list = field(default_factory=list)
    calls: list = field(default_factory=list)
    values: dict = field(default_factory=dict)


def shown(reply):
    """A reply as the program prints it."""
    if reply is None:
        return "empty"
    return str(reply).lower() if isinstance(reply, bool) else str(reply)


def read_history(given):
    """The history that these bytes are. ValueError where the program would refuse them, or takes them by luck."""
    history, pending, failed = History(values=values_in(given)), {}, set()
    for number, line in enumerate(given.decode(errors="replace").split("\n"), 1):
        try:
            event = json.loads(line) if line.strip() else {}
            read_event(event, number, history, pending, failed)
        except (ValueError, KeyError, TypeError, AttributeError):
            raise ValueError(f"line {number} is no event of a history") from None
    history.calls = [call for call in history.calls if id(call) not in failed]
    return history


def read_event(event, number, history, pending, failed):
    kind, process = event.get("event"), event.get("process")
    if kind == "object":
        history.objects.append({"name": event["object"], "kind": event["kind"], "start": start_of(event)})
    elif kind == "call":
        pending[process] = Call(process, event["object"], event["op"], event.get("args", []), number)
        history.calls.append(pending[process])
    elif kind == "return":
        call = pending.pop(process)
        call.returned, call.reply = number, shown(event["result"])
    elif kind == "fail":
        failed.add(id(pending.pop(process)))


def start_of(event):
    """The value with which an object starts, or None for one that starts empty or free."""
    return str(event.get("start", 0)) if event["kind"] in ("register", "counter") else None


def place(answer, history):
    """Finds each call that the answer names: by its line, or in a list by its process and object, whose calls stand there as they were
    called. Of a run that lists its last calls alone they are not found. ValueError where the history has no such call."""
    by_line = {call.line: number for number, call in enumerate(history.calls)}
    try:
        for it in answer.named():
            if it.line is not None:
                it.call = by_line[it.line]
        for listed in (answer.order + answer.dropped, *(part.run for part in answer.parts if not part.before)):
            left = defaultdict(deque)
            for number, call in enumerate(history.calls):
                left[call.process, call.object].append(number)
            for it in listed:
                it.call = left[it.process, it.object].popleft()
    except (KeyError, IndexError):
        raise ValueError(f"line {it.at + 1} of the answer names a call that the history has not") from None

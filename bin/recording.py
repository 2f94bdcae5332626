"""A history that is made of one that another tool recorded. For bin/from-jepsen and bin/from-porcupine."""
import json
import re

from edn import shown
from scripts import fail
from values import FIRST_VALUE

MOST_CALLS, MOST_IN_ALL = 16_384, 262_144
MOST_LETTERS = 1_000  # of a value
ANSWER_VALUES = {"read", "get", "deq", "pop"}
OK = object()  # the reply of an operation that answers nothing but that it is done


class Recording:
    """The lines of a history. Values that are no whole numbers get numbers, as the recorders give them."""

    def __init__(self):
        self.declared, self.lines, self.numbers, self.texts = {}, [], {}, {}
        self.at_work, self.calls, self.greatest = {}, {}, -1

    def declare(self, name, kind, start=None):
        """Declares an object, once. A register may start with any value."""
        if name not in self.declared:
            self.declared[name] = line = {"event": "object", "object": name, "kind": kind}
            if start not in (None, 0):
                line["start"] = start
                line |= {"text": self.texts[start]} if start in self.texts else {}

    def name_of(self, key):
        """The name of an object for this key."""
        text = shown(key)
        return text if re.fullmatch(r"[A-Za-z0-9_./:-]{1,64}", text) else f"key-{self.number(key)}"

    def number(self, value):
        """The whole number that stands for a value: a whole number itself."""
        if isinstance(value, int) and not isinstance(value, bool) and -(2**63) <= value < 2**63:
            return value
        text = shown(value)
        number = self.numbers.setdefault((type(value), text), FIRST_VALUE + len(self.numbers))
        self.texts[number] = text[:MOST_LETTERS]
        return number

    def reserve(self, number):
        """Leaves a number of a process to the history that is read."""
        self.greatest = max(self.greatest, number)

    def new_process(self):
        self.greatest += 1
        return self.greatest

    def call(self, process, name, op, args):
        numbers = [self.number(arg) for arg in args]
        self.calls[name] = self.calls.get(name, 0) + 1
        if self.calls[name] > MOST_CALLS or sum(self.calls.values()) > MOST_IN_ALL:
            fail(f"{name} gets more than {MOST_CALLS} calls, or all objects more than {MOST_IN_ALL}, which lincheck does not take")
        line = {"event": "call", "process": process, "object": name, "op": op, "args": numbers}
        if any(number in self.texts for number in numbers):
            line["text"] = [self.texts.get(number) for number in numbers]
        self.lines.append(line)

    def ret(self, process, name, op, reply):
        """A return: OK, a flag, None where there was nothing, or a value, which may be a flag itself."""
        line = {"event": "return", "process": process, "object": name, "result": "ok" if reply is OK else reply}
        if reply is not None and reply is not OK and (op in ANSWER_VALUES or not isinstance(reply, bool)):
            line["result"] = number = self.number(reply)
            line |= {"text": self.texts[number]} if number in self.texts else {}
        self.lines.append(line)

    def end(self, event, process, name):
        """A `fail` or an `info`."""
        self.lines.append({"event": event, "process": process, "object": name})

    def text(self):
        """The whole history."""
        lines = [{"format": 2}, *self.declared.values(), *self.lines]
        return "".join(json.dumps(line, ensure_ascii=False, separators=(",", ":")) + "\n" for line in lines)

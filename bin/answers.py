"""The answers of lincheck, read line by line: docs/FORMAT.md has their forms. For all scripts that read one."""
import re
from collections import deque
from dataclasses import dataclass, field
from typing import Optional

CALL = r"(?P<process>\d+) (?P<object>\S+) (?P<op>\w+)\((?P<args>[-\d,]*)\)(?: = (?P<reply>\S+))?"
PART = CALL.replace(r" (?P<object>\S+) ", ": ")  # of a call on the object that the answer is about
WHERE = r" \((?:line (?P<pending>\d+)|lines (?P<line>\d+) and (?P<returned>\d+))\)"
PLACED = re.compile(rf"(?P<place>\d+) {CALL}(?P<completed> completed)?")
DROPPED = re.compile(rf"dropped {CALL}")
NAMED = re.compile(rf"  {CALL}{WHERE}")
NEXT = re.compile(rf"next {CALL}{WHERE}: (?:here it would be (?P<here>\S+)|it cannot be done here)")
WHY = re.compile(rf"  (?P<how>put|taken|held) by {PART}{WHERE}, (?P<is_in>in|not in) the run")
NONE_PUT, MORE = re.compile(r"  no call put (?P<value>.+)"), re.compile(r"  \.\. and (?P<count>\d+) more")
CORE = re.compile(r"(?:this call|these (?P<count>\d+) calls)(?: on key (?P<key>-?\d+))? alone ha(?:s|ve) no order(?:, whatever \S+ held before line (?P<from>\d+))?:")
OTHERS = re.compile(r"no other call (?:up|from line (?P<since>\d+)) to line (?P<until>\d+) (?P<words>.*?)(?P<is_even>, and before line \d+ each was taken as often as it was put)?")
SUMS = re.compile(r"no order gives (?:this call|the second of these calls) so (?P<size>small|great) a reply:")
SUM = re.compile(r"  (?P<sign>[-+=] )?(?P<sum>-?\d+) (?P<words>.+)")
LONGEST, BEFORE = re.compile(r"longest run: (?P<length>\d+) of (?P<calls>\d+) calls?"), re.compile(r"\.\. (?P<count>\d+) calls? before")
STATE, EACH = re.compile(r"after the run: \S+ = (?P<state>.*)"), re.compile(r"(?P<object>\S+): (?P<verdict>linearizable|not linearizable|undecided)")
REPORT, FAULT = re.compile(r"(?P<verdict>not linearizable|undecided): (?P<object>\S+)"), re.compile(r"line (?P<line>\d+): (?P<words>.+)")
STORED = re.compile(r"stored (?P<count>\d+)")


@dataclass
class Named:
    """A call that a line names: which line of the answer, from 0, and where in it; and what the line tells of the call."""

    at: int
    span: tuple
    process: int
    object: Optional[str]  # none where the answer is about one object
    op: str
    args: list
    reply: Optional[str]
    line: Optional[int] = None  # of the history, where the answer has it, as the next
    returned: Optional[int] = None
    place: Optional[int] = None
    is_completed: bool = False  # by the order
    call: Optional[int] = None  # its number in the history, where `histories.place` found it


@dataclass
class Core:
    """Calls that alone have no order, and what is said of the others."""

    calls: list
    key: Optional[str]
    words: str
    since: Optional[int]
    until: int
    is_even: bool  # items that were put before were all taken
    from_line: Optional[int] = None  # of the history: they have none whatever the object held before, where it is given


@dataclass
class Sums:
    """Sums that leave no room for the reply of the last of these calls: what is counted from, and what is added and taken off."""

    calls: list
    is_small: bool
    lines: list  # of each its sign, its number and its words


@dataclass
class Next:
    """A call that could come next, what it would answer, and the lines below it."""

    call: Named
    here: Optional[str]  # none where it cannot be done
    why: list = field(default_factory=list)  # pairs of a word and a call, a text or a number
    more: int = 0


@dataclass
class Part:
    """What an answer tells of one object."""

    object: str
    verdict: str
    core: Optional[Core] = None
    sums: Optional[Sums] = None
    length: Optional[int] = None  # of the longest run, where that was found
    calls: Optional[int] = None
    before: int = 0  # calls of the run that are not listed
    run: list = field(default_factory=list)
    state: Optional[str] = None
    next: list = field(default_factory=list)


@dataclass
class Answer:
    """An answer. One by objects has a part for each; a report has one for the object that it is about, if any."""

    verdict: str  # linearizable, not linearizable, undecided or refused
    is_each: bool = False
    order: list = field(default_factory=list)
    dropped: list = field(default_factory=list)
    parts: list = field(default_factory=list)
    fault: Optional[tuple] = None  # the line of the history and the words
    stored: Optional[int] = None

    @property
    def status(self):
        """The exit status that belongs to it."""
        return ["linearizable", "not linearizable", "refused", "undecided"].index(self.verdict)

    def named(self):
        """All calls that it names."""
        yield from self.order + self.dropped
        for part in self.parts:
            yield from part.run + (part.core.calls if part.core else []) + (part.sums.calls if part.sums else [])
            for it in part.next:
                yield it.call
                yield from (told[1] for told in it.why if told[0] != "none")


class Lines:
    """The lines of an answer that have not been read yet."""

    def __init__(self, text):
        self.left, self.at = deque(text.splitlines()), 0

    def take(self, form):
        """The next line, where it has this form."""
        found = form.fullmatch(self.left[0]) if self.left else None
        if found:
            self.left.popleft()
            self.at += 1
        return found

    def take_all(self, form):
        while found := self.take(form):
            yield found

    def need(self, form):
        return self.take(form) or self.refuse()

    def refuse(self):
        raise ValueError(f"line {self.at + 1} of the answer cannot be read: {self.left[0]}" if self.left else "the answer ends too soon")

    def named(self, found):
        """The call that the line just read names."""
        told = found.groupdict()
        line = told.get("line") or told.get("pending")
        end = found.string.index(")", found.end("line" if told["line"] else "pending")) + 1 if line else found.end()
        return Named(
            self.at - 1, (found.start("process"), end), int(told["process"]), told.get("object"), told["op"],
            list(map(int, filter(None, told["args"].split(",")))), told["reply"], number(line), number(told.get("returned")),
            number(told.get("place")), bool(told.get("completed")),
        )


def number(text):
    return int(text) if text else None


def parse(text):
    """The answer that this text is. ValueError where it is none. The empty text is the answer, by objects, where there is none."""
    lines = Lines(text)
    answer = read_refused(lines) or read_report(lines) or read_each(lines)
    if found := lines.take(STORED):
        answer.stored = int(found["count"])
    if lines.left:
        lines.refuse()
    return answer


def read_refused(lines):
    found = lines.take(FAULT)
    return Answer("refused", fault=(int(found["line"]), found["words"])) if found else None


def read_report(lines):
    if lines.take(re.compile("linearizable")):
        order = [lines.named(found) for found in lines.take_all(PLACED)]
        return Answer("linearizable", order=order, dropped=[lines.named(found) for found in lines.take_all(DROPPED)])
    found = lines.take(REPORT)
    if not found:
        return None
    part = Part(found["object"], found["verdict"])
    if part.verdict == "not linearizable":
        read_reasons(lines, part)
        read_run(lines, part)
    return Answer(part.verdict, parts=[part])


def read_each(lines):
    answer = Answer("linearizable", is_each=True)
    for found in lines.take_all(EACH):
        answer.parts.append(Part(found["object"], found["verdict"]))
        if found["verdict"] == "not linearizable":
            read_reasons(lines, answer.parts[-1])
    verdicts = {part.verdict for part in answer.parts}
    answer.verdict = next((it for it in ("not linearizable", "undecided") if it in verdicts), "linearizable")
    return answer


def read_reasons(lines, part):
    """A core or sums, where there are any."""
    if found := lines.take(CORE):
        calls = [lines.named(lines.need(NAMED)) for _ in range(int(found["count"] or 1))]
        others = lines.need(OTHERS)
        part.core = Core(calls, found["key"], others["words"], number(others["since"]), int(others["until"]), bool(others["is_even"]), number(found["from"]))
    elif found := lines.take(SUMS):
        calls = [lines.named(it) for it in lines.take_all(NAMED)]
        sums = [((it["sign"] or "").strip(), int(it["sum"]), it["words"]) for it in (lines.need(SUM) for _ in range(4))]
        part.sums = Sums(calls, found["size"] == "small", sums)


def read_run(lines, part):
    """The longest run, and why it ends."""
    if lines.take(re.compile("longest run: not found in time")):
        return
    found = lines.need(LONGEST)
    part.length, part.calls = int(found["length"]), int(found["calls"])
    before = lines.take(BEFORE)
    part.before = int(before["count"]) if before else 0
    part.run = [lines.named(it) for it in lines.take_all(PLACED)]
    if found := lines.take(STATE):
        part.state = found["state"]
        part.next = [read_next(lines, it) for it in lines.take_all(NEXT)]


def read_next(lines, found):
    it = Next(lines.named(found), found["here"])
    while told := lines.take(WHY) or lines.take(NONE_PUT) or lines.take(MORE):
        if told.re is WHY:
            it.why.append((told["how"], lines.named(told), told["is_in"] == "in"))
        elif told.re is NONE_PUT:
            it.why.append(("none", told["value"]))
        else:
            it.more = int(told["count"])
    return it

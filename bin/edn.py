"""Reads EDN, in which Jepsen writes its histories. For bin/from-jepsen."""
import re

TOKEN = re.compile(
    r"""[\s,]+ | ;[^\n]* | (?P<open>\#\{|\(|\[|\{) | (?P<close>[])}]) | "(?P<text>(?:[^"\\]|\\.)*)" | (?P<skip>\#_)
    | \\(?P<letter>\w+|.) | \#(?P<tag>[^\s,"\[\](){};]+) | (?P<word>[^\s,"\[\](){};]+)""",
    re.VERBOSE | re.DOTALL,
)
CLOSED = {"(": ")", "[": "]", "{": "}", "#{": "}"}
ESCAPES = {"n": "\n", "t": "\t", "r": "\r"}
WORDS = {"nil": None, "true": True, "false": False}


class Keyword(str):
    """A keyword or a symbol, which is equal to the text without its colon."""

    def __repr__(self):
        return f":{self}"


class Set(tuple):
    """The items of a set, which may be lists."""


def read_all(text):
    """All values of a text, one after another. ValueError where it is no EDN."""
    reader, found = Reader(text), []
    while (value := reader.value()) is not END:
        found.append(value)
    if reader.at < len(reader.tokens):
        raise ValueError("a bracket is closed that was not opened")
    return found


END = object()


class Reader:
    def __init__(self, text):
        self.tokens, self.at, place = [], 0, 0
        while place < len(text):
            found = TOKEN.match(text, place)
            if not found:
                raise ValueError(f"no EDN at {text[place : place + 20]!r}")
            if found.lastgroup:
                self.tokens.append((found.lastgroup, found[found.lastgroup]))
            place = found.end()

    def value(self):
        """The next value, or END before a closing bracket and at the end."""
        if self.at == len(self.tokens) or self.tokens[self.at][0] == "close":
            return END
        kind, text = self.tokens[self.at]
        self.at += 1
        if kind in ("skip", "tag"):  # what a tag says of a value is left out
            value = self.value()
            return self.value() if kind == "skip" else value
        if kind == "open":
            return self.collection(text)
        if kind == "text":
            return re.sub(r"\\(u[0-9a-fA-F]{4}|.)", unescaped, text, flags=re.DOTALL)
        return word(text) if kind == "word" else text

    def collection(self, opened):
        items = []
        while (value := self.value()) is not END:
            items.append(value)
        if self.at == len(self.tokens) or self.tokens[self.at][1] != CLOSED[opened]:
            raise ValueError(f"a bracket {opened} is not closed")
        self.at += 1
        if opened == "{":
            return {key if isinstance(key, (str, int)) else shown(key): value for key, value in zip(items[::2], items[1::2])}
        return Set(items) if opened == "#{" else items


def unescaped(found):
    letter = found[1]
    return chr(int(letter[1:], 16)) if len(letter) > 1 else ESCAPES.get(letter, letter)


def word(text):
    """A number, a keyword, or another word."""
    if text in WORDS:
        return WORDS[text]
    if re.fullmatch(r"[+-]?\d+N?", text):
        return int(text.rstrip("N"))
    if re.fullmatch(r"[+-]?\d+(\.\d*)?([eE][+-]?\d+)?M?", text):
        return float(text.rstrip("M"))
    return Keyword(text.removeprefix(":"))


def shown(value):
    """A value as EDN has it; a text without its quotes."""
    if value is None or isinstance(value, bool):
        return {None: "nil", True: "true", False: "false"}[value]
    if isinstance(value, dict):
        return "{" + ", ".join(f"{shown(key)} {shown(it)}" for key, it in value.items()) + "}"
    if isinstance(value, (list, Set)):
        items = " ".join(map(shown, value))
        return f"#{{{items}}}" if isinstance(value, Set) else f"[{items}]"
    return repr(value) if isinstance(value, Keyword) else str(value)

"""The values for which numbers stand in a history. For bin/with-values and bin/picture."""
import json
import re

FIRST_VALUE = 9_000_000_000_000_000_001  # recorders number values from here on


def values_in(history):
    """The values of a history, in quotes, by their numbers. Lines that are no events have none."""
    values = {}
    for line in history.split(b"\n"):
        try:
            event = json.loads(line) if b'"text"' in line else {}
            numbers, texts = event.get("args", event.get("result", event.get("start"))), event.get("text")
        except (ValueError, AttributeError):
            continue
        pairs = zip(numbers, texts) if isinstance(numbers, list) and isinstance(texts, list) else [(numbers, texts)]
        values.update({str(it): quoted(text) for it, text in pairs if isinstance(it, int) and it >= FIRST_VALUE and isinstance(text, str)})
    return values


def quoted(text):
    """The text in quotes, without characters that a terminal would not show."""
    return "".join(it if it.isprintable() else f"\\u{ord(it):04x}" for it in json.dumps(text, ensure_ascii=False))


def with_values(text, values):
    """The text with values in place of their numbers."""
    return re.sub(r"(?<![\w.:/-])\d+(?![\w./-]|:\S)", lambda number: values.get(number[0], number[0]), text)

"""What is wrong with a bad line of a script, and what mends it."""

from __future__ import annotations

import re
from collections.abc import Callable, Sequence

from .basis import entry_counts, is_shape

NAME = re.compile(r"[A-Za-z][A-Za-z0-9_]{0,31}\Z")
_PLAIN = re.compile(r"[0-9]{1,20}\Z")
_ENTRY = re.compile(r"-?[0-9]{1,20}\Z")
_TIME = re.compile(r"([0-9]{1,20})(?:/([0-9]{1,20}))?\Z")
_TICKS = 65536

MENDS = {
    "byte": "{field} has a byte that isn't printable ASCII, a space or a tab (an accent, a dash, a byte order mark?): "
    "write plain letters",
    "keyword": "{field} is none of shape, session, append, correct, remove, sig, log, parts and watch",
    "place": "the first line is `shape W N`, which stands once, and commands stand after `session 1`",
    "fields": "it hasn't the words that are due: {due}",
    "name": "{field} isn't a name: 1 to 32 letters, digits and underscores, the first a letter",
    "time": "{field} isn't a time: a whole number a, or a/b where b is one of 1, 2, 4, .., 65536; rows lie before "
    "65536, and intervals end at 65536 at most",
    "number": "{field} isn't a whole number in range; entries go from -2^63 to 2^63 - 1: multiply by a scale and round "
    "(python3 -m rough csv does)",
    "width": "the width is from 1 to 12, and not {field}",
    "depth": "the depth is from 1 to 8, and not {field}",
    "words": "the shape has more than 2,000 words: the widths 2, 3, 4, 5 and 6, 7 to 12 go to the depths 8, 6, 5, 4, 3",
    "session": "the sessions are 1, 2, 3 and so on, in this order, at most 16, and not {field}",
    "interval": "an interval ends before it begins: exchange its ends; times of `parts` may be equal, and never fall",
    "resolution": "the resolution is from 0 to 16, and not {field}",
    "watches": "a script watches at most 64 intervals",
    "commands": "a script has at most 65,536 commands: ask in several scripts",
    "load": "commands times words of the shape exceed 8,000,000: have fewer rows, or a lesser depth",
    "answers": "queries times words of the shape exceed 2,000,000: ask in several scripts",
    "end": "the script ends here, and has no shape or no session",
}
Test = Callable[[str], bool]
_PLACES = {"keyword": 0, "width": 1, "depth": 2, "session": 1, "resolution": 3}
_PLACES_IN_PARTS = {**_PLACES, "resolution": 1}


def shape_of(lines: Sequence[bytes]) -> tuple[int, int] | None:
    """The shape that the first content line tells, where it is one."""
    for line in lines:
        words = line.split()
        if words and not words[0].startswith(b"#"):
            numbers = words[1:] if words[0] == b"shape" else []
            if len(numbers) != 2 or not all(number.isdigit() and len(number) <= 20 for number in numbers):
                return None
            width, depth = map(int, numbers)
            return (width, depth) if is_shape(width, depth) else None
    return None


def mend(words: Sequence[str], shape: tuple[int, int] | None, reason: str, field: str | None) -> str:
    """What is wrong, and what mends it, for a line of these words."""
    return MENDS.get(reason, reason).format(field=f"`{field}`" if field else "a word", due=_due(words, shape))


def _due(words: Sequence[str], shape: tuple[int, int] | None) -> str:
    """The words that a line is to have, by its first word."""
    query = "from to resolution, and where a version is named, at and its number"
    counts = " or ".join(map(str, entry_counts(*shape))) if shape else "W"
    forms = {
        "shape": "shape W N",
        "session": "session s",
        "append": f"append name time, and {counts} entries",
        "correct": f"correct name, and {counts} entries",
        "remove": "remove name",
        "sig": f"sig {query}",
        "log": f"log {query}",
        "parts": "parts resolution version, and 2 to 65 times",
        "watch": "watch from to resolution",
    }
    return forms.get(words[0] if words else "", "a keyword, and its words")


def bad_field(words: Sequence[str], reason: str) -> str | None:
    """The first word of a bad line that has the reason."""
    keyword = words[0] if words else ""
    places = _PLACES_IN_PARTS if keyword == "parts" else _PLACES
    if reason in places:
        place = places[reason]
        return words[place] if place < len(words) else None
    if reason == "byte":
        return next((word for word in words if not word.isascii() or not word.isprintable() or "\\x" in word), None)
    tests = {"name": (_is_name,), "time": (_is_row_time, _is_end), "number": (_is_plain, _is_version, _is_entry)}.get(
        reason, ()
    )
    for word, test in zip(words[1:], _fields_of(keyword, len(words))):
        if test is not None and test in tests and not test(word):
            return word
    return None


def _fields_of(keyword: str, count: int) -> list[Test | None]:
    """The tests of the fields of a line of so many words at most, in their order; None for the word `at`."""
    query: list[Test | None] = [_is_end, _is_end, _is_plain, None, _is_version]
    forms: dict[str, list[Test | None]] = {
        "shape": [_is_plain, _is_plain],
        "session": [_is_plain],
        "append": [_is_name, _is_row_time, *[_is_entry] * count],
        "correct": [_is_name, *[_is_entry] * count],
        "remove": [_is_name],
        "sig": query,
        "log": query,
        "parts": [_is_plain, _is_version, *[_is_end] * count],
        "watch": [_is_end, _is_end, _is_plain],
    }
    return forms.get(keyword, [])


def _is_name(word: str) -> bool:
    return NAME.match(word) is not None


def _is_plain(word: str) -> bool:
    return _PLAIN.match(word) is not None and int(word) < 2**32


def _is_version(word: str) -> bool:
    return _PLAIN.match(word) is not None and int(word) < 2**64


def _is_entry(word: str) -> bool:
    return _ENTRY.match(word) is not None and -(2**63) <= int(word) < 2**63


def _is_row_time(word: str) -> bool:
    return _is_time(word, _TICKS * _TICKS - 1)


def _is_end(word: str) -> bool:
    return _is_time(word, _TICKS * _TICKS)


def _is_time(word: str, last: int) -> bool:
    match = _TIME.match(word)
    if match is None:
        return False
    parts = int(match[2] or 1)
    return 1 <= parts <= _TICKS and parts & (parts - 1) == 0 and int(match[1]) * _TICKS // parts <= last

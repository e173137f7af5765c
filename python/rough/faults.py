"""What can go wrong: a fault ends a whole run, a refusal is the answer to one command."""

from __future__ import annotations

import signal
from collections.abc import Sequence

from .diagnosis import bad_field, mend, shape_of


class Fault(Exception):
    """The program refused the run; `status` is its status, and `text` what it wrote."""

    def __init__(self, message: str, status: int, text: str) -> None:
        super().__init__(message)
        self.status, self.text = status, text


class WordsFault(Fault):
    """Status 2: the words of the command line are refused."""


class SizeFault(Fault):
    """Status 3: the script has more than 4,194,304 bytes."""


class ScriptFault(Fault):
    """Status 3: the first bad line of the script.

    `line` is its number, from 1, `content` its text, `reason` the program's word for what is wrong, and `field` the
    bad word, or None where there isn't one.
    """

    def __init__(self, text: str, script: bytes, line: int, reason: str) -> None:
        lines = script.split(b"\n")
        self.line, self.reason = line, reason
        self.content = lines[line - 1].decode("ascii", "backslashreplace").rstrip("\r") if line <= len(lines) else ""
        words = self.content.split()
        self.field = bad_field(words, reason)
        super().__init__(f"line {line}, `{self.content}`: {mend(words, shape_of(lines), reason, self.field)}", 3, text)


class OrderFault(Fault):
    """Status 3: the order isn't legal at `place`, counted from 1."""

    def __init__(self, text: str, place: int) -> None:
        super().__init__(
            f"the order isn't legal at place {place}: its session has no step left, or others have one", 3, text
        )
        self.place = place


class ReadFault(Fault):
    """Status 4: reading the script failed."""


class WriteFault(Fault):
    """Status 5: writing the answers failed."""


class OutOfMemory(Fault):
    """Status 6: memory was wanting."""


class Crash(Fault):
    """Any other end: a signal, or a status that the program doesn't have."""


class Refusal(Exception):
    """An answer that isn't a value, to the command number `command` of `session`; the stream is as it was."""

    def __init__(self, message: str, session: int | None = None, command: int | None = None) -> None:
        super().__init__(message if session is None else f"session {session}, command {command}: {message}")
        self.session, self.command = session, command


class _AtVersion(Refusal):
    """A refusal whose line tells the current `version`."""

    message = ""

    def __init__(self, version: int, session: int | None = None, command: int | None = None) -> None:
        super().__init__(self.message.format(version=version), session, command)
        self.version = version


class NameTaken(_AtVersion):
    """A row of this name is live; nothing was appended, and the old row stands."""

    message = "a row of this name is live: choose another, or correct the row"


class NoRow(_AtVersion):
    """No row of this name is live; nothing was changed."""

    message = "no row of this name is live"


class NoVersion(_AtVersion):
    """The named version doesn't exist; `version` is the current one."""

    message = "the last version is {version}"


class Overflow(Refusal):
    """The numbers could leave 127 bits; `weight` is the sum of the weights of the rows."""

    def __init__(self, weight: int, session: int | None = None, command: int | None = None) -> None:
        super().__init__(
            f"rows of weight {weight:,} don't fit in 127 bits: take a smaller scale, a shorter interval or a "
            "lesser depth",
            session,
            command,
        )
        self.weight = weight


class Growth(Refusal):
    """The tables of the shape leave their room; no shape within the limits does."""


def fault_of(status: int, text: str, script: bytes, words: Sequence[str] = ()) -> Fault:
    """The exception for a status other than 0, and what was written with it."""
    told = text.split()
    if status == 2:
        return WordsFault(f"the words {list(words)} are refused", status, text)
    if status == 3 and told[:2] == ["fault", "line"]:
        return ScriptFault(text, script, int(told[2]), told[3])
    if status == 3 and told[:2] == ["fault", "order"]:
        return OrderFault(text, int(told[3]))
    if status == 3:
        return SizeFault(f"the script has {len(script):,} bytes, more than 4,194,304", status, text)
    plain = {4: (ReadFault, "reading failed"), 5: (WriteFault, "writing failed"), 6: (OutOfMemory, "memory is wanting")}
    if status in plain:
        kind, message = plain[status]
        return kind(message, status, text)
    return Crash(f"ended by {signal.Signals(-status).name}" if status < 0 else f"status {status}", status, text)


def refusal_of(reply: str, rest: str, session: int | None = None, command: int | None = None) -> Refusal | None:
    """The refusal that an answer is, or None where it is a value or an accepted edit."""
    kinds = {"name-taken": NameTaken, "no-row": NoRow, "no-version": NoVersion, "overflow": Overflow}
    if reply in kinds:
        return kinds[reply](int(rest), session, command)
    if reply in ("growth", "growth-level"):
        return Growth(f"the tables of the shape leave their room: {reply} {rest}", session, command)
    return None

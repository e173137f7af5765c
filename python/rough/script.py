"""Scripts of one or more sessions, and what a run of them answers."""

from __future__ import annotations

from collections.abc import Iterable, Iterator, Mapping, Sequence
from fractions import Fraction
from functools import lru_cache
from itertools import pairwise
from math import floor, prod
from typing import Any, Generic, NamedTuple, TypeVar

from .basis import check_shape, entry_counts, letters_of, members, text_of
from .diagnosis import NAME
from .faults import Refusal, refusal_of
from .program import Program
from .values import LogSignature, Scale, Signature, Told

TICKS = 65536  # in a unit of time
LAST_TICK = TICKS * TICKS
MOST_PARTS = 64  # of a partition in one line
MOST_WATCHES = 64

Log = TypeVar("Log")
Whole = TypeVar("Whole")


class Handle(NamedTuple):
    """A command: its session, and its number there, both from 1."""

    session: int
    command: int


class Partition(NamedTuple, Generic[Log, Whole]):
    """What is asked of a partition of an interval: the logarithm over each part, in the order of time, and the
    signature of the whole; their handles, or their values.
    """

    logs: list[Log]
    whole: Whole


def exact(x: Any) -> Fraction:
    """A number of any type, or a text of one, as a Fraction."""
    if isinstance(x, (int, Fraction, str)):
        return Fraction(x)
    if hasattr(x, "as_integer_ratio"):
        try:
            return Fraction(*x.as_integer_ratio())
        except OverflowError:
            raise ValueError(f"{x} isn't a finite number") from None
    return Fraction(x.__index__()) if hasattr(x, "__index__") else Fraction(x)


def tick_of(time: Any) -> int:
    """The tick of a time, a number or a text of one; a time is a multiple of 2^-16 from 0 to 65536."""
    tick: int | Fraction = time * TICKS if isinstance(time, int) else exact(time) * TICKS
    if tick.denominator != 1:
        raise ValueError(f"the time {time} isn't a multiple of 2^-16: floor_time rounds it down")
    if not 0 <= tick <= LAST_TICK:
        raise ValueError(f"the time {time} isn't from 0 to 65536")
    return int(tick)


def floor_time(time: Any) -> Fraction:
    """The time rounded down to a multiple of 2^-16."""
    return Fraction(floor(exact(time) * TICKS), TICKS)


def time_of(tick: int) -> Fraction:
    """The time of a tick."""
    return Fraction(tick, TICKS)


def time_text(tick: int) -> str:
    """The time of a tick as a script has it."""
    return str(tick // TICKS if tick % TICKS == 0 else time_of(tick))


def scales_of(scale: Any, width: int) -> Scale:
    """A scale for each letter, of one for all or a list of them; None where rows are whole."""
    return None if scale is None else each_scale(scale, width)


def each_scale(scale: Any, width: int) -> tuple[Fraction, ...]:
    """A scale for each letter, of one for all or a list of them."""
    is_one = isinstance(scale, str) or not isinstance(scale, Iterable)
    scales = (exact(scale),) * width if is_one else tuple(map(exact, scale))
    if len(scales) != width:
        raise ValueError(f"{len(scales)} scales for {width} letters")
    if min(scales) <= 0:
        raise ValueError("a scale isn't above 0")
    return scales


@lru_cache(maxsize=64)
def entry_scales(width: int, depth: int, scale: Scale) -> list[Fraction]:
    """For each member of the Hall set the product of the scales of its letters."""
    scales = scale or (Fraction(1),) * width
    return [
        prod((scales[letter - 1] for letter in letters_of(member)), start=Fraction(1))
        for member in members(width, depth)
    ]


def entries_of(entries: Iterable[Any] | Mapping[Any, Any], width: int, depth: int, scale: Scale) -> tuple[int, ...]:
    """The whole entries of a row, multiplied by the scales of their letters: one for each letter, or
    coordinates of a Lie element, one for each member of the Hall set up to some degree, or a mapping from
    members or their texts.
    """
    numbers = _coordinates(entries, width, depth) if isinstance(entries, Mapping) else list(entries)
    if len(numbers) not in entry_counts(width, depth):
        counts = " or ".join(map(str, entry_counts(width, depth)))
        raise ValueError(f"{len(numbers)} entries, where a row of width {width} and depth {depth} has {counts}")
    scaled = [exact(x) * s for x, s in zip(numbers, entry_scales(width, depth, scale))] if scale else numbers
    return tuple(map(_entry, scaled))


def _coordinates(entries: Mapping[Any, Any], width: int, depth: int) -> list[Any]:
    """The coordinates that a mapping tells, zeros too, up to the degree of the last one."""
    numbers = {text_of(member): place for place, member in enumerate(members(width, depth))}
    texts = {key if isinstance(key, str) else text_of(key): x for key, x in entries.items()}
    if not texts.keys() <= numbers.keys():
        raise ValueError(f"not in the Hall set: {', '.join(sorted(texts.keys() - numbers.keys()))}")
    last = max((numbers[text] for text in texts), default=0)
    count = next(count for count in entry_counts(width, depth) if last < count)
    return [texts.get(text, 0) for text in list(numbers)[:count]]


def _entry(x: Any) -> int:
    number: int | Fraction = x if isinstance(x, int) else exact(x)
    if number.denominator != 1:
        raise ValueError(f"the entry {number} isn't a whole number: give a scale, or let rough.Path round")
    if not -(2**63) <= number < 2**63:
        raise ValueError(f"the entry {number} isn't from -2^63 to 2^63 - 1")
    return int(number)


def append_line(name: str, tick: int, entries: Sequence[int]) -> str:
    """The line that appends a row of whole entries."""
    if not NAME.match(name):
        raise ValueError(f"{name!r} isn't a name: 1 to 32 letters, digits and underscores, the first a letter")
    if not 0 <= tick < LAST_TICK:
        raise ValueError(f"a row lies at a time from 0 to below 65536, and not at {time_of(tick)}")
    return f"append {name} {time_text(tick)} {' '.join(map(str, entries))}"


def correct_line(name: str, entries: Sequence[int]) -> str:
    """The line that gives a row other whole entries."""
    return f"correct {name} {' '.join(map(str, entries))}"


def check_query(kind: str, start: int, stop: int, resolution: int) -> None:
    """Refuses a query that isn't one."""
    if kind not in ("sig", "log"):
        raise ValueError(f'a query is "sig" or "log", and not {kind!r}')
    if start > stop:
        raise ValueError("the interval ends before it begins")
    if not 0 <= resolution <= 16:
        raise ValueError(f"the resolution is from 0 to 16, and not {resolution}")


def query_line(kind: str, start: int, stop: int, resolution: int = 16, at: int | None = None) -> str:
    """The line that asks for a "sig" or a "log" from one tick up to another."""
    check_query(kind, start, stop, resolution)
    return f"{kind} {time_text(start)} {time_text(stop)} {resolution}" + ("" if at is None else f" at {at}")


def parts_line(ticks: Sequence[int], resolution: int, at: int) -> str:
    """The line that asks for the logarithm from each tick up to the next one, and for the signature of the whole."""
    if not 2 <= len(ticks) <= MOST_PARTS + 1:
        raise ValueError(f"a line has partitions of 2 to {MOST_PARTS + 1} times, and not {len(ticks)}")
    for start, stop in pairwise(ticks):
        check_query("log", start, stop, resolution)
    return f"parts {resolution} {at} {' '.join(map(time_text, ticks))}"


def watch_line(start: int, stop: int, resolution: int = 16) -> str:
    """The line that watches the interval from one tick up to another."""
    check_query("sig", start, stop, resolution)
    return f"watch {time_text(start)} {time_text(stop)} {resolution}"


def commands_in(line: str) -> int:
    """How many commands a line stands for: one, but a line `parts` one for each of its times."""
    return max(1, len(line.split()) - 3) if line.lstrip().startswith("parts") else 1


class Session:
    """The commands of one session; each call answers the handle that a run is asked by, or those of several."""

    def __init__(self, script: Script, number: int) -> None:
        self.script, self.number = script, number
        self.lines: list[str] = []
        self.count = 0  # of the commands, of which a line may have several
        self.intervals: dict[int, tuple[int, int]] = {}  # ticks, by command

    def line(self, text: str) -> Handle:
        """A command by its line, or the first of those that the line stands for."""
        return self.commands(text)[0]

    def commands(self, text: str) -> list[Handle]:
        """All commands that a line stands for."""
        self.lines.append(text)
        first = self.count + 1
        self.count += commands_in(text)
        return [Handle(self.number, command) for command in range(first, self.count + 1)]

    def append(self, name: str, time: Any, entries: Iterable[Any]) -> Handle:
        """A new row."""
        return self.line(append_line(name, tick_of(time), self._whole(entries)))

    def correct(self, name: str, entries: Iterable[Any]) -> Handle:
        """Other entries for a row, which keeps its time."""
        return self.line(correct_line(name, self._whole(entries)))

    def remove(self, name: str) -> Handle:
        """The row goes."""
        return self.line(f"remove {name}")

    def signature(self, start: Any, stop: Any, resolution: int = 16, at: int | None = None) -> Handle:
        """Asks for the signature from `start` up to `stop`, which is left out, at the current version or a named
        one.
        """
        return self.ask("sig", tick_of(start), tick_of(stop), resolution, at)

    def log_signature(self, start: Any, stop: Any, resolution: int = 16, at: int | None = None) -> Handle:
        """Asks for the logarithm of that signature."""
        return self.ask("log", tick_of(start), tick_of(stop), resolution, at)

    def partition(self, times: Iterable[Any], resolution: int = 16, *, at: int) -> Partition[Handle, Handle]:
        """Asks in one line, at a named version, for the logarithm from each of 2 to 65 times up to the next one, and
        for the signature from the first up to the last.
        """
        return self.parts(list(map(tick_of, times)), resolution, at)

    def ask(self, kind: str, start: int, stop: int, resolution: int = 16, at: int | None = None) -> Handle:
        """A query by its kind and ticks."""
        handle = self.line(query_line(kind, start, stop, resolution, at))
        self.intervals[handle.command] = start, stop
        return handle

    def parts(self, ticks: Sequence[int], resolution: int, at: int) -> Partition[Handle, Handle]:
        """A partition by its ticks."""
        *logs, whole = self.commands(parts_line(ticks, resolution, at))
        for handle, interval in zip(logs, pairwise(ticks)):
            self.intervals[handle.command] = interval
        self.intervals[whole.command] = ticks[0], ticks[-1]
        return Partition(logs, whole)

    def _whole(self, entries: Iterable[Any]) -> tuple[int, ...]:
        return entries_of(entries, self.script.width, self.script.depth, self.script.scale)


class Script:
    """A shape and sessions; with a scale, or one for each letter, rows are multiples of 1/scale."""

    def __init__(self, width: int, depth: int, scale: Any = None) -> None:
        check_shape(width, depth)
        self.width, self.depth, self.scale = width, depth, scales_of(scale, width)
        self.sessions: list[Session] = []
        self.watches: list[str] = []  # their lines

    def watch(self, start: Any, stop: Any, resolution: int = 16) -> int:
        """Watches the times from `start` up to `stop`, which is left out; answers the number of the watch, from 1:
        `run.touched(number)` has the versions that touch them.
        """
        if len(self.watches) == MOST_WATCHES:
            raise ValueError(f"a script watches at most {MOST_WATCHES} intervals")
        self.watches.append(watch_line(tick_of(start), tick_of(stop), resolution))
        return len(self.watches)

    def session(self) -> Session:
        """The next session."""
        self.sessions.append(Session(self, len(self.sessions) + 1))
        return self.sessions[-1]

    def __str__(self) -> str:
        lines = [f"shape {self.width} {self.depth}", *self.watches]
        for session in self.sessions:
            lines += [f"session {session.number}", *session.lines]
        return "\n".join(lines) + "\n"

    def run(self, order: Sequence[int] | None = None, cache: int | None = None, program: Program | None = None) -> Run:
        """Runs it: on threads, or, where an order of session numbers is given, on one thread and in this order."""
        program = program or Program()
        words = [] if order is None else ["--order", ",".join(map(str, order)) or "none"]
        words += [] if cache is None else ["--cache", str(cache)]
        return Run(self, program.run(str(self).encode("ascii"), words), cache, program)


def _numbers(text: str) -> list[int]:
    """Numbers with commas between, or none."""
    return [] if text == "none" else list(map(int, text.split(",")))


Answer = int | Signature | LogSignature | Refusal


class Run:
    """The answers of a run: `run[handle]` is a version, a Signature or a LogSignature; a refusal is raised.

    `order` has the session of each step, `versions` the last version, and `touched(n)` the versions that touch the
    n-th watch.
    """

    def __init__(self, script: Script, text: str, cache: int | None = None, program: Program | None = None) -> None:
        self.script, self.text = script, text
        self.order: list[int] = []
        self.versions = 0
        self._touched: list[list[int]] = []
        self._cache, self._program = cache, program
        self._lines = text.split("\n")
        self._places: dict[Handle, int] = {}
        session = 0
        for place, line in enumerate(self._lines):
            first, _, rest = line.partition(" ")
            if first.isdecimal():
                self._places[Handle(session, int(first))] = place
            elif first == "session":
                session = int(rest)
            elif first == "order":
                self.order = _numbers(rest)
            elif first == "versions":
                self.versions = int(rest)
            elif first == "watch":
                self._touched.append(_numbers(rest.split(" ")[-1]))

    def answer(self, handle: Handle) -> Answer:
        """The answer to a command; a refusal is answered, and not raised."""
        place = self._places[handle]
        words = self._lines[place].split(" ")
        reply = words[1]
        if reply == "done":
            return int(words[2])
        if reply in ("sig", "log"):
            version, hits, misses, exps = map(int, words[3::2])
            ticks = self.script.sessions[handle.session - 1].intervals.get(handle.command)
            told = Told(version, hits, misses, exps, ticks and (time_of(ticks[0]), time_of(ticks[1])))
            script = self.script
            lines = self._lines[place + 1 : place + 1 + script.depth]
            kind: type[Signature] | type[LogSignature] = Signature if reply == "sig" else LogSignature
            return kind(script.width, script.depth, lines, script.scale, told)
        refusal = refusal_of(reply, " ".join(words[2:]), *handle)
        if refusal is None:
            raise ValueError(f"an answer of an unknown form: {self._lines[place]}")
        return refusal

    def touched(self, watch: int) -> list[int]:
        """The versions that touch a watch, by its number from 1: those whose edit lies in its interval."""
        if not 1 <= watch <= len(self._touched):
            raise IndexError(f"there are {len(self._touched)} watches, and no watch {watch}")
        return self._touched[watch - 1]

    def __getitem__(self, handle: Handle) -> int | Signature | LogSignature:
        answer = self.answer(handle)
        if isinstance(answer, Refusal):
            raise answer
        return answer

    def __iter__(self) -> Iterator[Handle]:
        return iter(self._places)

    def replay(self) -> Run:
        """Runs the printed order on one thread, which has to write the same bytes."""
        again = self.script.run(self.order, self._cache, self._program)
        if again.text != self.text:
            raise AssertionError("the printed order, run again, writes other bytes")
        return again

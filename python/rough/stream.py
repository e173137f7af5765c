"""A stream that is edited and asked at will: each call that asks runs the program, once for as many queries as a
script takes.
"""

from __future__ import annotations

from collections.abc import Callable, Iterable, Sequence
from fractions import Fraction
from functools import cache
from itertools import accumulate, pairwise
from typing import Any, NamedTuple

from .basis import check_shape, weight_of, word_count
from .faults import NameTaken, NoRow, NoVersion, Overflow, Refusal
from .program import Program
from .script import (
    MOST_PARTS,
    MOST_WATCHES,
    Answer,
    Handle,
    Partition,
    Script,
    append_line,
    check_query,
    correct_line,
    entries_of,
    entry_scales,
    scales_of,
    tick_of,
    time_of,
)
from .values import LogSignature, Signature, Value

MOST_BYTES, MOST_COMMANDS, MOST_LOAD, MOST_ANSWERS = 4_194_304, 65_536, 8_000_000, 2_000_000
MOST_LINE = 48  # no query is longer, nor are the first two lines of a script


class LimitError(Exception):
    """The edits of the stream and one query don't fit in a script."""


class Query(NamedTuple):
    """The signature ("sig") or its logarithm ("log") from `start` up to `stop`, at a version, or the current one."""

    kind: str
    start: Any
    stop: Any
    resolution: int = 16
    at: int | None = None


class Row(NamedTuple):
    """A live row: its time, and its entries over the scale of the stream, in the order of the Hall set."""

    time: Fraction
    entries: tuple[Fraction, ...]


class _Asked(NamedTuple):
    """A query with its version and ticks; in the order of versions the program is asked."""

    version: int
    kind: str
    start: int
    stop: int
    resolution: int


class _Edit(NamedTuple):
    tick: int
    line: str


class _Plan(NamedTuple):
    """A script, with the handles of its queries, and of the edits before the last of them."""

    script: Script
    queries: list[Handle]
    edits: list[Handle]


class Stream:
    """Rows of whole numbers, or of multiples of 1/scale, with one scale for all letters or one for each.

    Edits are kept here, and numbered as the program numbers them: `version` is the last. Each run checks that it
    agrees. Answers are kept too: what was asked before is not asked again.
    """

    def __init__(
        self, width: int, depth: int, scale: Any = None, program: Program | None = None, cache: int | None = None
    ) -> None:
        check_shape(width, depth)
        self.width, self.depth, self.scale = width, depth, scales_of(scale, width)
        self._program, self._cache = program, cache
        self._edits: list[_Edit] = []
        self._live: dict[str, tuple[int, tuple[int, ...]]] = {}
        self._answers: dict[_Asked, Answer] = {}
        self._named = 0

    @classmethod
    def from_increments(
        cls,
        data: Iterable[Iterable[Any]],
        times: Sequence[Any] | None = None,
        depth: int = 2,
        scale: Any = None,
        **more: Any,
    ) -> Stream:
        """A row for each increment, at its time, or at 0, 1, 2 and so on."""
        rows = [list(row) for row in data]
        if not rows:
            raise ValueError("without an increment the width isn't known: make a Stream(width, depth)")
        stream = cls(len(rows[0]), depth, scale, **more)
        for place, row in enumerate(rows):
            stream.append(place if times is None else times[place], row)
        return stream

    @property
    def version(self) -> int:
        """The number of edits so far."""
        return len(self._edits)

    @property
    def rows(self) -> dict[str, Row]:
        """The live rows by name, in the order of their appending."""
        scale = entry_scales(self.width, self.depth, self.scale)
        return {
            name: Row(time_of(tick), tuple(x / s for x, s in zip(entries, scale)))
            for name, (tick, entries) in self._live.items()
        }

    def append(self, time: Any, entries: Iterable[Any], name: str | None = None) -> str:
        """A new row; answers its name, which is r1, r2 and so on where none is given.

        Its entries are the increments of the letters; or the coordinates of a Lie element, one for each member
        of the Hall set up to some degree, or a mapping from members or their texts, as {"1": 2, "[1,2]": -1}.
        """
        return self.append_whole(tick_of(time), entries_of(entries, self.width, self.depth, self.scale), name)

    def append_whole(self, tick: int, entries: tuple[int, ...], name: str | None = None) -> str:
        """A new row by its tick and its whole entries, which are multiplied by the scales already."""
        if name is None:
            name = self._next_name()
        if name in self._live:
            raise NameTaken(self.version)
        self._edits.append(_Edit(tick, append_line(name, tick, entries)))
        self._live[name] = tick, entries
        return name

    def correct(self, name: str, entries: Iterable[Any]) -> int:
        """Other entries for a row, which keeps its time; answers the new version."""
        tick, whole = self._tick_of(name), entries_of(entries, self.width, self.depth, self.scale)
        self._edits.append(_Edit(tick, correct_line(name, whole)))
        self._live[name] = tick, whole
        return self.version

    def remove(self, name: str) -> int:
        """The row goes; answers the new version."""
        self._edits.append(_Edit(self._tick_of(name), f"remove {name}"))
        del self._live[name]
        return self.version

    def signature(self, start: Any, stop: Any, resolution: int = 16, at: int | None = None) -> Signature:
        """The signature from `start` up to `stop`, which is left out, of the current version or a named one."""
        return self.ask([Query("sig", start, stop, resolution, at)])[0]

    def log_signature(self, start: Any, stop: Any, resolution: int = 16, at: int | None = None) -> LogSignature:
        """The logarithm of that signature."""
        return self.ask([Query("log", start, stop, resolution, at)])[0]

    def signatures(
        self, intervals: Iterable[tuple[Any, Any]], resolution: int = 16, at: int | None = None
    ) -> list[Signature]:
        """The signature over each interval."""
        return self.ask([Query("sig", start, stop, resolution, at) for start, stop in intervals])

    def log_signatures(
        self, intervals: Iterable[tuple[Any, Any]], resolution: int = 16, at: int | None = None
    ) -> list[LogSignature]:
        """The logarithm over each interval."""
        return self.ask([Query("log", start, stop, resolution, at) for start, stop in intervals])

    def partition(
        self, times: Iterable[Any], resolution: int = 16, at: int | None = None
    ) -> Partition[LogSignature, Signature]:
        """The logarithm from each time up to the next one, and the signature from the first up to the last: `.logs`
        and `.whole`.

        They are asked for in one line where it has room for them, and none is known yet; else as by `ask`.
        """
        ends = list(times)
        if len(ends) < 2:
            raise ValueError(f"a partition has at least 2 times, and not {len(ends)}")
        queries = [Query("log", start, stop, resolution, at) for start, stop in pairwise(ends)]
        queries.append(Query("sig", ends[0], ends[-1], resolution, at))
        asked = list(map(self._asked, queries))
        if (
            len(ends) <= MOST_PARTS + 1
            and self._answers.keys().isdisjoint(asked)
            and self._fitting(asked) == len(asked)
        ):
            self._answer(asked, self._plan_of_parts(asked))
        *logs, whole = self.ask(queries)
        return Partition(logs, whole)

    def history(
        self, start: Any, stop: Any, kind: str = "sig", resolution: int = 16, versions: Iterable[int] | None = None
    ) -> dict[int, Any]:
        """The value at each version, or at the named ones, by version."""
        asked = list(range(self.version + 1) if versions is None else versions)
        return dict(zip(asked, self.ask([Query(kind, start, stop, resolution, version) for version in asked])))

    def changes(self, start: Any, stop: Any) -> list[int]:
        """The versions whose edit lies in the interval: from one to the next its values stay the same."""
        first, last = tick_of(start), tick_of(stop)
        return [version for version, edit in enumerate(self._edits, 1) if first <= edit.tick < last]

    def watch(self, intervals: Iterable[tuple[Any, Any]], resolution: int = 16) -> list[list[int]]:
        """For each interval the versions whose edit lies in it, as the program tells them, 64 intervals in a run; both
        ends are rounded down at the resolution.
        """
        asked = list(intervals)
        touched: list[list[int]] = []
        for first in range(0, len(asked), MOST_WATCHES):
            script = self.script()
            watches = [script.watch(start, stop, resolution) for start, stop in asked[first : first + MOST_WATCHES]]
            run = script.run(cache=self._cache, program=self._program)
            touched += map(run.touched, watches)
        return touched

    def wide_signature(self, start: Any, stop: Any) -> Signature:
        """The signature of an interval whose rows may not fit in 127 bits: the program answers for parts that fit,
        and their product is worked out here, by Chen's identity. Each time of the interval must fit by itself.
        """
        ends = [time_of(tick) for tick in self._cuts(tick_of(start), tick_of(stop))]
        parts = self.signatures(list(zip(ends, ends[1:])))
        while len(parts) > 1:
            pairs = [parts[i : i + 2] for i in range(0, len(parts), 2)]
            parts = [pair[0] * pair[1] if len(pair) == 2 else pair[0] for pair in pairs]
        return parts[0]

    def ask(self, queries: Iterable[Query | tuple], refusals: str = "raise") -> list[Any]:
        """The answers to many queries, in as few runs as the limits of a script allow.

        A refused query raises its refusal, or, with refusals="keep", answers it. A query of a version stands right
        after the edit that made it, so that nodes which are kept serve it.
        """
        if refusals not in ("raise", "keep"):
            raise ValueError(f'refusals are to "raise" or to "keep", and not to {refusals!r}')
        asked = [self._asked(Query(*query)) for query in queries]
        wanted = sorted(set(asked) - self._answers.keys())
        while wanted:
            count = self._fitting(wanted)
            self._answer(wanted[:count], self._plan(wanted[:count]))
            wanted = wanted[count:]
        answers = [self._answers[query] for query in asked]
        refused = next((answer for answer in answers if isinstance(answer, Refusal)), None)
        if refused is not None and refusals == "raise":
            raise refused
        return answers

    def script(self, queries: Iterable[Query | tuple] = ()) -> Script:
        """The script of all edits and of these queries, each after the edits of its version; `str(script)` is
        its text.
        """
        plan = self._plan(sorted(self._asked(Query(*query)) for query in queries))
        for edit in self._edits[len(plan.edits) :]:
            plan.script.sessions[0].line(edit.line)
        return plan.script

    def _next_name(self) -> str:
        self._named += 1
        while f"r{self._named}" in self._live:
            self._named += 1
        return f"r{self._named}"

    def _tick_of(self, name: str) -> int:
        if name not in self._live:
            raise NoRow(self.version)
        return self._live[name][0]

    def _asked(self, query: Query) -> _Asked:
        version = self.version if query.at is None else query.at
        if not 0 <= version <= self.version:
            raise NoVersion(self.version)
        asked = _Asked(version, query.kind, tick_of(query.start), tick_of(query.stop), query.resolution)
        check_query(*asked[1:])
        return asked

    def _fitting(self, asked: Sequence[_Asked]) -> int:
        """How many of the first queries fit in one script, with the edits up to the last one's version."""
        count = word_count(self.width, self.depth)
        sizes = [0, *accumulate(len(edit.line) + 1 for edit in self._edits)]
        for place, query in enumerate(asked):
            commands, size = query.version + place + 1, sizes[query.version] + (place + 2) * MOST_LINE
            if (
                size > MOST_BYTES
                or commands > MOST_COMMANDS
                or commands * count > MOST_LOAD
                or (place + 1) * count > MOST_ANSWERS
            ):
                if place == 0:
                    raise LimitError(
                        f"{query.version:,} edits, {sizes[query.version]:,} bytes, leave no room for a query: a script "
                        f"has at most {MOST_BYTES:,} bytes and, of this shape, "
                        f"{min(MOST_COMMANDS, MOST_LOAD // count):,} commands"
                    )
                return place
        return len(asked)

    def _empty_script(self) -> Script:
        """A script of this shape and scale with one session, which is empty."""
        script = Script(self.width, self.depth, self.scale)
        script.session()
        return script

    def _plan(self, asked: Sequence[_Asked]) -> _Plan:
        """The script of some queries, by rising version."""
        script = self._empty_script()
        session = script.sessions[0]
        handles: list[Handle] = []
        edits: list[Handle] = []
        for query in asked:
            edits += [session.line(edit.line) for edit in self._edits[len(edits) : query.version]]
            handles.append(session.ask(*query[1:]))
        return _Plan(script, handles, edits)

    def _plan_of_parts(self, asked: Sequence[_Asked]) -> _Plan:
        """The script of the queries of a partition, in one line."""
        script, whole = self._empty_script(), asked[-1]
        session = script.sessions[0]
        edits = [session.line(edit.line) for edit in self._edits[: whole.version]]
        ticks = [*(query.start for query in asked[:-1]), whole.stop]
        logs, last = session.parts(ticks, whole.resolution, whole.version)
        return _Plan(script, [*logs, last], edits)

    def _answer(self, asked: Sequence[_Asked], plan: _Plan) -> None:
        """Runs the program for some queries, whose script is the plan, and keeps their answers."""
        run = plan.script.run(cache=self._cache, program=self._program)
        if [run.answer(handle) for handle in plan.edits] != list(range(1, len(plan.edits) + 1)):
            raise AssertionError("the program numbers the versions otherwise")
        for query, handle in zip(asked, plan.queries):
            answer = run.answer(handle)
            if isinstance(answer, Value) and answer.version != query.version:
                raise AssertionError("the program answers for another version")
            self._answers[query] = answer

    def _cuts(self, start: int, stop: int) -> list[int]:
        """Ticks from start to stop, between which the rows fit in a signature."""
        weights: dict[int, int] = {}
        for tick, entries in self._live.values():
            if start <= tick < stop:
                weights[tick] = weights.get(tick, 0) + weight_of(entries, self.width, self.depth)
        cuts, weight, limit = [start], 0, room(self.width, self.depth)
        for tick in sorted(weights):
            weight += weights[tick]
            if weight > limit and tick > cuts[-1]:
                cuts.append(tick)
                weight = weights[tick]
        return [*cuts, stop]


def room(width: int, depth: int, kind: str = "sig", program: Program | None = None) -> int:
    """The greatest weight of rows that fit in a signature ("sig") or in a logarithm ("log") of the shape."""
    if kind == "sig" or depth == 1:
        return _greatest(lambda weight: weight**depth < 2**127)
    return _log_room(width, depth, program)


@cache
def _log_room(width: int, depth: int, program: Program | None) -> int:
    """The greatest weight that the program takes: each turn asks for 256 weights between one that fits and one that
    doesn't.
    """
    fits, overflows = 0, 2**63
    while overflows - fits > 1:
        step = -(-(overflows - fits) // 257)
        weights = range(fits + step, overflows, step)
        stream = Stream.from_increments(
            [[weight] + [0] * (width - 1) for weight in weights], depth=depth, program=program
        )
        answers = stream.ask([Query("log", time, time + 1) for time in range(len(weights))], refusals="keep")
        for weight, answer in zip(weights, answers):
            if isinstance(answer, Overflow):
                overflows = weight
                break
            fits = weight
    return fits


def _greatest(fits: Callable[[int], bool]) -> int:
    """The greatest number that fits, where all smaller ones do."""
    low, high = 0, 1
    while fits(high):
        low, high = high, 2 * high
    while high - low > 1:
        middle = (low + high) // 2
        low, high = (middle, high) if fits(middle) else (low, middle)
    return low

"""Sampled paths of decimal numbers or floats, as streams of whole numbers, with a report of all rounding.

Levels are rounded, and not the steps between them, so that errors don't add up: each level is within half a unit of
its scale. The step from one sample to the next stands at the time of the first of them, so that the stream from
time a up to time b is the path from the sample at a to the sample at b.
"""

from __future__ import annotations

import csv
import math
import os
from collections.abc import Iterable, Sequence
from dataclasses import dataclass
from datetime import date, datetime, timedelta, timezone
from fractions import Fraction
from itertools import accumulate, pairwise
from typing import Any, NamedTuple

from .basis import Word, words
from .program import Program
from .script import TICKS, each_scale, exact, floor_time
from .stream import Stream, room

UNITS = {"seconds": 1, "minutes": 60, "hours": 3600, "days": 86400}
EPOCH = datetime(1970, 1, 1)
MISSING = ("", "na", "nan", "null")
LARGEST_ENTRY = 2**63 - 1


class Sample(NamedTuple):
    """The levels of all channels at a time, and the name that the step from there gets."""

    time: Fraction
    name: str
    levels: tuple[Fraction, ...]


def moment(time: Any, form: str | None = None) -> tuple[Fraction, bool]:
    """A time as an exact number, and whether it is a date, whose number is its seconds since 1970."""
    if isinstance(time, str):
        try:
            return (Fraction(time), False) if form is None else moment(datetime.strptime(time, form))
        except ValueError:
            if form is not None:
                raise
            time = datetime.fromisoformat(time)
    if getattr(getattr(time, "dtype", None), "kind", "") == "M":  # a datetime64 of numpy
        time = time.astype("datetime64[us]").item()
    if isinstance(time, datetime):
        plain = time.astimezone(timezone.utc).replace(tzinfo=None) if time.tzinfo else time
        return Fraction((plain - EPOCH) // timedelta(microseconds=1), 10**6), True
    if isinstance(time, date):
        return Fraction(86400 * (time - EPOCH.date()).days), True
    return exact(time), False


@dataclass(frozen=True)
class Clock:
    """From the times of samples to those of the stream: (time - origin) / unit, rounded down to a tick.

    With the clock "rows" the time of the stream is the place of the sample, from 0.
    """

    origin: Fraction
    unit: Fraction
    is_dated: bool
    places: dict[Fraction, int] | None = None

    def exact(self, time: Any) -> Fraction:
        """The time of the stream before it is rounded."""
        at = moment(time)[0]
        if self.places is None:
            return (at - self.origin) / self.unit
        if at not in self.places:
            raise ValueError(f"no sample is at {time}")
        return Fraction(self.places[at])

    def __call__(self, time: Any) -> Fraction:
        return floor_time(self.exact(time))

    def back(self, time: Any) -> datetime | Fraction:
        """The time of a sample for a time of the stream."""
        at = self.origin + exact(time) * self.unit
        if self.places is not None:
            at = next((sample for sample, place in self.places.items() if place >= exact(time)), max(self.places))
        return EPOCH + timedelta(microseconds=int(at * 10**6)) if self.is_dated else at

    def __str__(self) -> str:
        unit = "a sample" if self.places is not None else f"{self.unit} s" if self.is_dated else str(self.unit)
        return f"time 0 of the stream is {self.back(0)}, its unit is {unit}"


@dataclass(frozen=True)
class Rounding:
    """What was rounded: the `lengths` and `level_errors` of channels in the units of the data; `weight` and
    `step_error` of all steps, and `heaviest`, the greatest weight of steps in a row that are asked for, in whole units.
    """

    channels: list[str]
    scales: tuple[Fraction, ...]
    lengths: list[Fraction]
    level_errors: list[Fraction]
    weight: int
    heaviest: int
    step_error: Fraction
    room: int
    depth: int
    steps: int
    skipped: int
    rounded_times: int
    shared_ticks: int
    clock: Clock

    def bound(self, word: Word) -> Fraction:
        """No coefficient of the signature at this word, over any interval between samples, is farther from that of
        the path as it was given.
        """
        if not word:
            return Fraction(0)
        over = math.prod((self.scales[letter - 1] for letter in word), start=Fraction(1))
        return min(
            self._bound_by_steps(len(word)) / over,
            self._bound_by_levels(len(word)) / over,
            self._bound_by_channels(word),
        )

    def level_bound(self, k: int) -> Fraction:
        """The greatest bound of the words of k letters."""
        return max(map(self.bound, words(len(self.channels), k)[k]))

    def _bound_by_steps(self, k: int) -> Fraction:
        """In whole units: with V the weight and E the sum of the errors of all steps, products of k steps change by
        at most ((V + E)^k - V^k) / k!.
        """
        return ((self.weight + self.step_error) ** k - self.weight**k) / math.factorial(k)

    def _bound_by_levels(self, k: int) -> Fraction:
        """In whole units: one factor after the other is exchanged, and since levels are off by at most half a unit,
        the error from one time to another is at most 1.
        """
        return k * (self.weight + self.step_error) ** (k - 1) / math.factorial(k - 1)

    def _bound_by_channels(self, word: Word) -> Fraction:
        """As by levels, with the length and the error of each channel by itself, in the units of the data."""
        lengths = [self.lengths[letter - 1] for letter in word]
        errors = [2 * self.level_errors[letter - 1] for letter in word]
        return sum((error * math.prod(lengths[:i] + lengths[i + 1 :]) for i, error in enumerate(errors)), Fraction(0))

    def __str__(self) -> str:
        lines = [
            f"{self.steps} steps between samples, {self.skipped} lines skipped for missing values",
            f"{self.clock}; {self.rounded_times} times rounded, {self.shared_ticks} on the tick of the one before",
        ]
        for name, scale, error in zip(self.channels, self.scales, self.level_errors):
            lines.append(
                f"{name}: scale {scale}, " + (f"levels off by at most {float(error):.3g}" if error else "exact")
            )
        lines.append(f"weight {self.heaviest:,} of {self.room:,} ({100 * self.heaviest / self.room:.3g} %)")
        bounds = ", ".join(f"level {k} {float(self.level_bound(k)):.2g}" for k in range(1, self.depth + 1))
        lines.append(f"coefficients of signatures off by at most: {bounds}")
        return "\n".join(lines)


class Path:
    """Samples in the order of their times: levels of channels that are whole, decimal or float."""

    def __init__(
        self, times: Iterable[Any], levels: Iterable[Iterable[Any]], channels: Sequence[str] | None = None
    ) -> None:
        stamps = [moment(time) for time in times]
        rows = [tuple(map(exact, row)) for row in levels]
        if not rows or len(rows) != len(stamps) or len(set(map(len, rows))) != 1:
            raise ValueError("a path has at least one sample, a time for each, and the same channels in all")
        samples = [Sample(time, f"r{place}", row) for place, ((time, _), row) in enumerate(zip(stamps, rows), 1)]
        is_dated = _all_dated(is_dated for _, is_dated in stamps)
        self._set(samples, channels or [f"x{i}" for i in range(1, len(rows[0]) + 1)], is_dated, 0)

    def _set(self, samples: Iterable[Sample], channels: Sequence[str], is_dated: bool, skipped: int) -> None:
        self.samples = sorted(samples, key=lambda sample: sample.time)
        self.channels, self.is_dated, self.skipped = list(channels), is_dated, skipped

    @classmethod
    def _of(cls, samples: Iterable[Sample], channels: Sequence[str], is_dated: bool, skipped: int) -> Path:
        path = object.__new__(cls)
        path._set(samples, channels, is_dated, skipped)
        return path

    @property
    def times(self) -> list[Fraction]:
        """The times of the samples; a date is its seconds since 1970."""
        return [sample.time for sample in self.samples]

    @classmethod
    def from_csv(
        cls,
        lines: str | os.PathLike | Iterable[str],
        time: str,
        channels: Sequence[str] | None = None,
        values: str = "levels",
        form: str | None = None,
        missing: str = "skip",
        delimiter: str = ",",
        decimal: str = ".",
    ) -> Path:
        """From the name of a file, or from lines, of a table with a head.

        `values` are "levels", "log" for levels of which the logarithm is to be taken (as a float, by `math.log`), or
        "increments", each of which stands at its time. `missing` tells what becomes of a line without a value:
        "skip", "hold" the value before, or "fail". Empty lines and lines that begin with # are passed over.
        `form` is the form of dates as strptime has it; ISO dates need none.
        """
        if isinstance(lines, (str, os.PathLike)):
            with open(lines, encoding="utf-8-sig", newline="") as file:
                return cls.from_csv(list(file), time, channels, values, form, missing, delimiter, decimal)
        if values not in ("levels", "log", "increments") or missing not in ("skip", "hold", "fail"):
            raise ValueError("values are levels, log or increments; missing is skip, hold or fail")
        table = csv.reader(lines, delimiter=delimiter)
        rows = [(table.line_num, cells) for cells in table if cells and any(cells) and not cells[0].startswith("#")]
        head = [cell.strip() for cell in rows[0][1]] if rows else []
        names = list(channels) if channels is not None else [name for name in head if name != time]
        places = [_place_of(name, head) for name in (time, *names)]
        read = [_read(number, cells, places, len(head), form, decimal, values == "log") for number, cells in rows[1:]]
        read.sort(key=lambda row: row.time)
        whole = _filled(read, missing, values == "increments")
        if not whole:
            raise ValueError("no line has a value in each channel")
        samples = _accumulated(whole) if values == "increments" else whole
        return cls._of(samples, names, _all_dated(line.is_dated for line in read), len(read) - len(whole))

    def with_time(self) -> Path:
        """The same path with its time, from 0 to 1, as a first channel."""
        first, last = self.samples[0].time, self.samples[-1].time
        span = (last - first) or 1
        samples = [sample._replace(levels=((sample.time - first) / span, *sample.levels)) for sample in self.samples]
        return self._of(samples, ["time", *self.channels], self.is_dated, self.skipped)

    def lead_lag(self) -> Path:
        """Each channel twice: at each step the lead goes first, and then the lag follows it, both at the time of
        the step.
        """
        samples = []
        for sample, later in pairwise(self.samples):
            samples.append(sample._replace(name=sample.name + "_lead", levels=sample.levels + sample.levels))
            samples.append(sample._replace(name=sample.name + "_lag", levels=later.levels + sample.levels))
        last = self.samples[-1]
        samples.append(last._replace(levels=last.levels + last.levels))
        channels = [f"{name} {role}" for role in ("lead", "lag") for name in self.channels]
        return self._of(samples, channels, self.is_dated, self.skipped)

    def clock(self, unit: Any = "auto") -> Clock:
        """The clock of a unit: a number, the name of one for dates, "rows", or "auto", which fits."""
        first, last = self.samples[0].time, self.samples[-1].time
        if unit == "rows":
            places: dict[Fraction, int] = {}
            for place, time in enumerate(self.times):
                places.setdefault(time, place)
            return Clock(first, Fraction(1), self.is_dated, places)
        if unit in UNITS:
            if not self.is_dated:
                raise ValueError(f"the times are numbers, and not dates: the clock can't go by {unit}")
            return Clock(first, Fraction(UNITS[unit]), True)
        if unit != "auto":
            return Clock(first, exact(unit), self.is_dated)
        if self.is_dated:
            return Clock(first, Fraction(_unit_of_dates(self.times)), True)
        if 0 <= first and last < TICKS:
            return Clock(Fraction(0), Fraction(1), False)
        return Clock(first, Fraction(10) ** max(0, math.ceil(math.log10((last - first + 1) / TICKS))), False)

    def scales(
        self, depth: int, kind: str = "sig", longest: int | None = None, program: Program | None = None
    ) -> tuple[Fraction, ...]:
        """For each channel the greatest of 1, 2 and 5 times a power of ten for which any `longest` steps in a row
        fit, and all without it; or a lesser one that is exact.
        """
        greatest = self._greatest_scales(room(len(self.channels), depth, kind, program), longest)
        exact_scales = map(_exact_scale, zip(*(sample.levels for sample in self.samples)))
        return tuple(min(scale, exact_scale or scale) for scale, exact_scale in zip(greatest, exact_scales))

    def _greatest_scales(self, limit: int, longest: int | None) -> list[Fraction]:
        """For each channel the greatest of 1, 2 and 5 times a power of ten that fits a weight: all have the same
        share of it, and each step of rounded levels is at most 1 longer than the exact one.
        """
        steps = min(longest or len(self.samples), len(self.samples))
        space = Fraction(min(limit, LARGEST_ENTRY) - steps, len(self.channels))
        if space < 1:
            raise ValueError(
                f"{steps:,} steps don't fit a weight of {limit:,}: take a lesser depth, or shorter intervals"
            )
        return [_greatest_scale(column, steps, space) for column in zip(*(sample.levels for sample in self.samples))]

    def stream(
        self,
        depth: int,
        scale: Any = "auto",
        clock: Any = "auto",
        kind: str = "sig",
        longest: int | None = None,
        program: Program | None = None,
        cache: int | None = None,
    ) -> tuple[Stream, Rounding]:
        """The stream of the steps between samples, and the report of the rounding.

        The scale is so chosen, or tested, that all steps fit in a signature ("sig") or a logarithm ("log"), or any
        `longest` steps in a row.
        """
        clock = clock if isinstance(clock, Clock) else self.clock(clock)
        is_auto = isinstance(scale, str) and scale == "auto"
        scales = self.scales(depth, kind, longest, program) if is_auto else each_scale(scale, len(self.channels))
        scaled = [[x * s for x, s in zip(sample.levels, scales)] for sample in self.samples]
        rounded = [[math.floor(x + Fraction(1, 2)) for x in levels] for levels in scaled]
        steps = [[b - a for a, b in zip(*pair)] for pair in pairwise(rounded)]
        limit = room(len(self.channels), depth, kind, program)
        heaviest = _heaviest(list(map(_weight, steps)), longest or len(steps))
        self._check_weight(heaviest, scales, limit, longest)

        stream = Stream(len(self.channels), depth, scales, program, cache)
        times = [
            Fraction(i) if clock.places else clock.exact(sample.time) for i, sample in enumerate(self.samples[:-1])
        ]
        for sample, time, step in zip(self.samples, times, steps):
            stream.append_whole(math.floor(time * TICKS), tuple(step), sample.name)
        return stream, Rounding(
            channels=self.channels,
            scales=scales,
            **_errors_of(scaled, rounded, scales),
            weight=sum(map(_weight, steps)),
            heaviest=heaviest,
            room=limit,
            depth=depth,
            steps=len(steps),
            skipped=self.skipped,
            rounded_times=sum(time != floor_time(time) for time in times),
            shared_ticks=_shared_ticks(times),
            clock=clock,
        )

    def _check_weight(self, weight: int, scales: Sequence[Fraction], limit: int, longest: int | None) -> None:
        """Refuses scales for which the heaviest `longest` steps in a row don't fit, and tells which do."""
        if weight > min(limit, LARGEST_ENTRY):
            greatest = ", ".join(map(str, self._greatest_scales(limit, longest)))
            raise ValueError(
                f"the scales {', '.join(map(str, scales))} give a weight of {weight:,}, and there is room for "
                f"{min(limit, LARGEST_ENTRY):,}: the greatest scales that fit are {greatest}"
            )


class _Line(NamedTuple):
    """A line of a table, its missing values as None."""

    number: int
    time: Fraction
    is_dated: bool
    values: list[Fraction | None]


def _all_dated(flags: Iterable[bool]) -> bool:
    """Whether all times are dates, or none is."""
    kinds = set(flags)
    if len(kinds) > 1:
        raise ValueError("some times are dates, and some are numbers")
    return True in kinds


def _place_of(name: str, head: Sequence[str]) -> int:
    if name not in head:
        raise ValueError(f"no column {name}; there are {', '.join(head) or 'none'}")
    return head.index(name)


def _read(
    number: int,
    cells: Sequence[str],
    places: Sequence[int],
    count: int,
    form: str | None,
    decimal: str,
    takes_log: bool,
) -> _Line:
    """A line of a table, by the places of its columns."""
    if len(cells) != count:
        raise ValueError(f"line {number}: {len(cells)} cells, and {count} in the head")
    try:
        time, *values = (cells[place].strip() for place in places)
        at, is_dated = moment(time, form)
        return _Line(number, at, is_dated, [_number(value, decimal, takes_log) for value in values])
    except (ValueError, ZeroDivisionError) as bad:
        raise ValueError(f"line {number}: {bad}") from None


def _number(cell: str, decimal: str, takes_log: bool) -> Fraction | None:
    if cell.lower() in MISSING:
        return None
    number = Fraction(cell.replace(decimal, ".") if decimal != "." else cell)
    if takes_log and number <= 0:
        raise ValueError(f"{cell} has no logarithm")
    return Fraction(math.log(number)) if takes_log else number


def _filled(lines: Sequence[_Line], missing: str, are_increments: bool) -> list[Sample]:
    """The samples of lines in the order of time, missing values skipped or held; an increment that is held is 0."""
    samples: list[Sample] = []
    for line in lines:
        values = line.values
        if None in values:
            if missing == "fail":
                raise ValueError(f"line {line.number}: a value is missing")
            if missing == "skip" or not (samples or are_increments):
                continue
            before = [Fraction(0)] * len(values) if are_increments else samples[-1].levels
            values = [held if value is None else value for held, value in zip(before, values)]
        samples.append(Sample(line.time, f"line{line.number}", tuple(values)))
    return samples


def _accumulated(increments: Sequence[Sample]) -> list[Sample]:
    """The levels whose steps are these increments, from 0, each step at the time of its increment."""
    sums = list(accumulate((sample.levels for sample in increments), lambda a, b: tuple(x + y for x, y in zip(a, b))))
    levels = [tuple(Fraction(0) for _ in sums[0]), *sums]
    steps = [sample._replace(levels=level) for sample, level in zip(increments, levels)]
    return [*steps, Sample(increments[-1].time, "last", levels[-1])]


def _errors_of(
    scaled: Sequence[Sequence[Fraction]], rounded: Sequence[Sequence[int]], scales: Sequence[Fraction]
) -> dict[str, Any]:
    """The part of the report that is about levels and steps, before and after rounding."""
    errors = [[r - x for r, x in zip(*pair)] for pair in zip(rounded, scaled)]
    step_errors = [[b - a for a, b in zip(*pair)] for pair in pairwise(errors)]
    columns = list(zip(zip(*scaled), zip(*rounded), zip(*errors), scales))
    return {
        "lengths": [max(_length(before), _length(after)) / scale for before, after, _, scale in columns],
        "level_errors": [_weight(column) / scale for _, _, column, scale in columns],
        "step_error": sum(map(_weight, step_errors), Fraction(0)),
    }


def _unit_of_dates(times: Sequence[Fraction]) -> int:
    """A day for dates without hours; else the shortest unit in which they fit."""
    if all(time % UNITS["days"] == 0 for time in times):
        return UNITS["days"]
    return next((unit for unit in UNITS.values() if (times[-1] - times[0]) / unit < TICKS), UNITS["days"])


def _greatest_scale(column: Sequence[Fraction], steps: int, space: Fraction) -> Fraction:
    """The greatest of 1, 2 and 5 times a power of ten for which any so many steps in a row stay in the space."""
    total = _heaviest([abs(b - a) for a, b in pairwise(column)], steps) or Fraction(1)
    power = math.floor(math.log10(space / total)) + 1
    scales = (factor * Fraction(10) ** exponent for exponent in range(power, power - 4, -1) for factor in (5, 2, 1))
    return next(scale for scale in scales if total * scale <= space)


def _exact_scale(column: Sequence[Fraction]) -> Fraction | None:
    """The least power of ten that makes all levels whole, if there is one up to 10^18."""
    over = math.lcm(*(x.denominator for x in column))
    return next((Fraction(10**exponent) for exponent in range(19) if 10**exponent % over == 0), None)


def _length(levels: Sequence[Any]) -> Any:
    """The sum of the absolute steps."""
    return sum((abs(b - a) for a, b in pairwise(levels)), Fraction(0))


def _weight(step: Sequence[Any]) -> Any:
    """The greatest absolute entry."""
    return max(map(abs, step))


def _heaviest(weights: Sequence[Any], steps: int) -> Any:
    """The greatest sum of so many weights in a row."""
    sums = [0, *accumulate(weights)]
    steps = min(steps, len(weights))
    return max(last - first for first, last in zip(sums, sums[steps:]))


def _shared_ticks(times: Sequence[Fraction]) -> int:
    """How many times differ from the one before, and have its tick."""
    return sum(a != b and floor_time(a) == floor_time(b) for a, b in pairwise(times))

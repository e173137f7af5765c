"""Checks of the client and the program against the independent one; each raises AssertionError where they differ."""

from __future__ import annotations

import random
from fractions import Fraction
from itertools import pairwise

import rough
from chen import Rows, Word, chen, exponential, rows_in


def edited_stream(
    seed: int, width: int, depth: int, program: rough.Program | None = None, max_degree: int = 1
) -> tuple[rough.Stream, list[Rows]]:
    """A stream of random edits with a small cache, and the rows of each version; rows have parts up to a degree."""
    draw = random.Random(seed)
    stream = rough.Stream(width, depth, program=program, cache=draw.choice([1, 3, 64]))
    rows: Rows = {}
    versions = [dict(rows)]
    for _ in range(40):
        count = draw.choice([width, *rough.basis.entry_counts(width, depth)[:max_degree]])
        entries = tuple(draw.randint(-9, 9) for _ in range(count))
        name = draw.choice(list(rows)) if rows and draw.random() < 0.5 else None
        if name is None:
            tick = draw.randrange(4 * rough.script.TICKS)
            rows[stream.append(Fraction(tick, rough.script.TICKS), entries)] = tick, entries
        elif draw.random() < 0.7:
            stream.correct(name, entries)
            rows[name] = rows[name][0], entries
        else:
            stream.remove(name)
            del rows[name]
        versions.append(dict(rows))
    return stream, versions


def check_answers(seed: int, width: int, depth: int, program: rough.Program | None = None, max_degree: int = 1) -> None:
    """Signatures and logarithms of random intervals, resolutions and versions."""
    draw = random.Random(-seed)
    stream, versions = edited_stream(seed, width, depth, program, max_degree)
    queries = []
    for _ in range(12):
        start, stop = sorted(Fraction(draw.randrange(5 * 2**16), 2**16) for _ in range(2))
        queries.append(rough.Query("sig", start, stop, draw.choice([0, 1, 3, 16]), draw.randrange(stream.version + 1)))
    signatures = stream.ask(queries)
    logarithms = stream.ask([query._replace(kind="log") for query in queries])
    for query, signature, logarithm in zip(queries, signatures, logarithms):
        due = chen(rows_in(versions[query.at], query.start, query.stop, query.resolution), width, depth)
        assert signature.terms() == nonzero(due), query
        assert logarithm.expand() == signature.log(), query
        assert signature.version == logarithm.version == query.at, query


def check_partition(seed: int, width: int, depth: int, program: rough.Program | None = None) -> None:
    """The logarithms and the signature of a random partition with two equal times, at a random version."""
    draw = random.Random(-seed)
    stream, versions = edited_stream(seed, width, depth, program)
    times = sorted(Fraction(draw.randrange(5 * 2**16), 2**16) for _ in range(5))
    times.insert(2, times[2])
    resolution, at = draw.choice([0, 1, 2]), draw.randrange(20, stream.version)
    logs, whole = stream.partition(times, resolution, at)
    intervals = [*pairwise(times), (times[0], times[-1])]
    dues = [nonzero(chen(rows_in(versions[at], *ends, resolution), width, depth)) for ends in intervals]
    for log, due in zip(logs, dues[:-1], strict=True):
        assert isinstance(log, rough.LogSignature), log
        assert nonzero(exponential(log.expand(), depth)) == due, log.interval
    assert whole.terms() == dues[-1], times
    assert {value.version for value in (*logs, whole)} == {at}, at


def check_watches(seed: int, width: int, depth: int, program: rough.Program | None = None) -> None:
    """The versions that touch random intervals are those between which the rows of the interval differ, or at which a
    row was corrected to what it was.
    """
    draw = random.Random(-seed)
    stream, versions = edited_stream(seed, width, depth, program)
    intervals = [sorted(Fraction(draw.randrange(5 * 2**16), 2**16) for _ in range(2)) for _ in range(6)]
    resolution = draw.choice([0, 2, 16])
    for (start, stop), touched in zip(intervals, stream.watch(map(tuple, intervals), resolution), strict=True):
        rows = [rows_in(version, start, stop, resolution) for version in versions]
        differ = {version for version, (before, after) in enumerate(pairwise(rows), 1) if before != after}
        assert differ <= set(touched), (start, stop)
        ends = [end - end % Fraction(1, 2**resolution) for end in (start, stop)]
        assert touched == stream.changes(*ends), (start, stop)


def nonzero(terms: dict[Word, Fraction]) -> dict[Word, Fraction]:
    """The coefficients that aren't 0."""
    return {word: x for word, x in terms.items() if x}


def check_weight(program: rough.Program | None = None) -> None:
    """The weight that an overflow tells is the sum of the greatest entries of the rows."""
    rows = [[60000, -1], [7, -97]]
    stream = rough.Stream.from_increments(rows, depth=8, program=program)
    (refusal,) = stream.ask([("sig", 0, 2)], refusals="keep")
    assert isinstance(refusal, rough.Overflow), refusal
    assert refusal.weight == sum(max(map(abs, row)) for row in rows), refusal

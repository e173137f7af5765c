"""An independent check, from the rows alone: Chen's product of exponentials, in Fractions."""

from __future__ import annotations

import random
from collections.abc import Iterable, Sequence
from fractions import Fraction
from itertools import product
from math import factorial

from rough import hall_set

Word = tuple[int, ...]
Rows = dict[str, tuple[int, tuple[int, ...]]]  # the tick and the entries by name, in the order of appending


def chen(rows: Iterable[Sequence], width: int, depth: int) -> dict[Word, Fraction]:
    """All coefficients by word, of rows in their order: sums over the cuts of a word."""
    words = [word for k in range(depth + 1) for word in product(range(1, width + 1), repeat=k)]
    total = {word: Fraction(not word) for word in words}
    for row in rows:
        step = exponential(lie_element(row, width, depth), depth)
        total = {word: sum(total[word[:i]] * step.get(word[i:], 0) for i in range(len(word) + 1)) for word in words}
    return total


def logarithm(series: dict[Word, Fraction], depth: int) -> dict[Word, Fraction]:
    """The nonzero coefficients of the sum of the powers of a series less 1, with signs, over their degrees."""
    reduced = {word: x for word, x in series.items() if word and x}
    power: dict[Word, Fraction] = {(): Fraction(1)}
    total: dict[Word, Fraction] = {}
    for m in range(1, depth + 1):
        power = multiplied(power, reduced, depth)
        for word, x in power.items():
            total[word] = total.get(word, Fraction(0)) + (x if m % 2 else -x) / m
    return {word: x for word, x in total.items() if x}


def exponential(element: dict[Word, Fraction], depth: int) -> dict[Word, Fraction]:
    """The sum of the powers over their factorials."""
    power: dict[Word, Fraction] = {(): Fraction(1)}
    total = dict(power)
    for m in range(1, depth + 1):
        power = multiplied(power, element, depth)
        for word, x in power.items():
            total[word] = total.get(word, Fraction(0)) + x / factorial(m)
    return total


def lie_element(entries: Sequence, width: int, depth: int) -> dict[Word, Fraction]:
    """The coordinates of a row, expanded to words."""
    members = [member for level in hall_set(width, depth) for member in level]
    total: dict[Word, Fraction] = {}
    for member, x in zip(members, entries):
        for word, coefficient in commutator(member, depth).items():
            total[word] = total.get(word, Fraction(0)) + coefficient * x
    return total


def commutator(member: int | tuple, depth: int) -> dict[Word, Fraction]:
    """A member of the Hall set as a sum of words."""
    if isinstance(member, int):
        return {(member,): Fraction(1)}
    left, right = (commutator(part, depth) for part in member)
    total = multiplied(left, right, depth)
    for word, x in multiplied(right, left, depth).items():
        total[word] = total.get(word, Fraction(0)) - x
    return total


def multiplied(left: dict[Word, Fraction], right: dict[Word, Fraction], depth: int) -> dict[Word, Fraction]:
    """The product of two sums of words, cut at the depth."""
    total: dict[Word, Fraction] = {}
    for (u, a), (v, b) in product(left.items(), right.items()):
        if len(u) + len(v) <= depth:
            total[u + v] = total.get(u + v, Fraction(0)) + a * b
    return total


def rows_in(rows: Rows, start: Fraction, stop: Fraction, resolution: int) -> list[tuple[int, ...]]:
    """The entries of the rows from start up to stop, both rounded down, in the order of time and of appending."""
    first, last = (end * 2**resolution // 1 * 2 ** (16 - resolution) for end in (start, stop))
    return [entries for tick, entries in sorted(rows.values(), key=lambda row: row[0]) if first <= tick < last]


def walk(count: int, width: int, seed: int = 1) -> list[list[int]]:
    """Random rows of small entries."""
    draw = random.Random(seed)
    return [[draw.randint(-9, 9) for _ in range(width)] for _ in range(count)]

"""Words and the Hall set: the keys of signatures and of their logarithms."""

from __future__ import annotations

from collections.abc import Sequence
from functools import cache
from itertools import accumulate, product
from typing import TypeAlias, Union

Word: TypeAlias = tuple[int, ...]
Member: TypeAlias = Union[int, tuple]  # a letter, or a pair of members
WIDEST, DEEPEST, MOST_WORDS = 12, 8, 2000


def word_count(width: int, depth: int) -> int:
    """The number of words of at most `depth` letters, the empty one too."""
    return sum(width**k for k in range(depth + 1))


def is_shape(width: int, depth: int) -> bool:
    """Whether the program takes the shape."""
    return 1 <= width <= WIDEST and 1 <= depth <= DEEPEST and word_count(width, depth) <= MOST_WORDS


def check_shape(width: int, depth: int) -> None:
    """Refuses a shape that the program doesn't take."""
    if not (1 <= width <= WIDEST and 1 <= depth <= DEEPEST):
        raise ValueError(
            f"the width is from 1 to {WIDEST} and the depth from 1 to {DEEPEST}, and not {width} and {depth}"
        )
    if word_count(width, depth) > MOST_WORDS:
        raise ValueError(
            f"width {width} and depth {depth} have {word_count(width, depth):,} words, more than {MOST_WORDS:,}"
        )


@cache
def words(width: int, depth: int) -> list[list[Word]]:
    """For each level from 0 to `depth` its words, in lexicographic order."""
    return [list(product(range(1, width + 1), repeat=k)) for k in range(depth + 1)]


@cache
def hall_set(width: int, depth: int) -> list[list[Member]]:
    """For each level from 0 to `depth` the members of the Hall set, in the order of their numbers; level 0 has
    none.
    """
    levels: list[list[Member]] = [[], list(range(1, width + 1))]
    number: dict[Member, int] = {letter: letter for letter in levels[1]}
    for degree in range(2, depth + 1):
        levels.append([])
        for left, right in _pairs(levels, degree):
            if number[left] < number[right] and (isinstance(right, int) or number[right[0]] <= number[left]):
                number[left, right] = len(number) + 1
                levels[degree].append((left, right))
    return levels[: depth + 1]


def _pairs(levels: list[list[Member]], degree: int) -> list[tuple[Member, Member]]:
    """All pairs of members whose degrees add up, the left one's being the lower."""
    return [pair for lower in range(1, degree // 2 + 1) for pair in product(levels[lower], levels[degree - lower])]


def text_of(member: Member) -> str:
    """A member of the Hall set as the program writes it."""
    return str(member) if isinstance(member, int) else f"[{text_of(member[0])},{text_of(member[1])}]"


def word_text(word: Word) -> str:
    """A word as the program writes it."""
    return "(" + ",".join(map(str, word)) + ")"


def letters_of(member: Member) -> Word:
    """The letters of a member of the Hall set, from left to right."""
    return (member,) if isinstance(member, int) else letters_of(member[0]) + letters_of(member[1])


@cache
def members(width: int, depth: int) -> list[Member]:
    """All members of the Hall set, in the order of their numbers."""
    return [member for level in hall_set(width, depth) for member in level]


@cache
def entry_counts(width: int, depth: int) -> list[int]:
    """How many entries a row may have: for each degree up to the depth, the number of members up to it."""
    return list(accumulate(map(len, hall_set(width, depth)[1:])))


def weight_of(entries: Sequence[int], width: int, depth: int) -> int:
    """The weight of a row: its greatest absolute entry of degree 1; and for each degree j from 2 the j-th root,
    rounded up, of (2 depth)^(j - 1) times the sum of the absolute entries of this degree.
    """
    weight, first = max(map(abs, entries[:width])), width
    for j, last in enumerate(entry_counts(width, depth)[1:], 2):
        weight += _root(j, (2 * depth) ** (j - 1) * sum(map(abs, entries[first:last])))
        first = last
    return weight


def _root(j: int, number: int) -> int:
    """The least whole number whose j-th power is at least the number."""
    low, high = -1, 1
    while high**j < number:
        low, high = high, 2 * high
    while high - low > 1:
        middle = (low + high) // 2
        low, high = (low, middle) if middle ** j >= number else (middle, high)
    return high if number else 0


@cache
def expansion(member: Member) -> dict[Word, int]:
    """A member of the Hall set as a sum of words, by [x,y] = xy - yx."""
    if isinstance(member, int):
        return {(member,): 1}
    terms: dict[Word, int] = {}
    for (u, a), (v, b) in product(expansion(member[0]).items(), expansion(member[1]).items()):
        terms[u + v] = terms.get(u + v, 0) + a * b
        terms[v + u] = terms.get(v + u, 0) - a * b
    return {word: coefficient for word, coefficient in terms.items() if coefficient}

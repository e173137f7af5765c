"""Signatures and their logarithms as exact values.

A coefficient is a whole numerator over the denominator of its level, and, where rows were scaled, over the scales
of its letters. The text of a level is read when it is first asked for.
"""

from __future__ import annotations

from collections.abc import Mapping, Sequence
from dataclasses import dataclass
from fractions import Fraction
from functools import cached_property, lru_cache
from math import comb, factorial, lcm, prod
from typing import TYPE_CHECKING, Any, ClassVar

from .basis import Member, Word, expansion, hall_set, letters_of, text_of, word_text, words

if TYPE_CHECKING:
    import numpy

Key = Any  # a word, or a member of the Hall set
Scale = tuple[Fraction, ...] | None
Levels = list[dict[Word, Any]]
Interval = tuple[Fraction, Fraction]


@dataclass(frozen=True)
class Frame:
    """What all values of one kind, shape and scale share: their keys and denominators, level by level."""

    width: int
    depth: int
    scale: Scale
    is_log: bool

    @cached_property
    def keys(self) -> list[list[Key]]:
        """For each level its keys, in the order of the program."""
        return hall_set(self.width, self.depth) if self.is_log else words(self.width, self.depth)

    @cached_property
    def by_text(self) -> list[dict[str, Key]]:
        """For each level from the texts of its keys to the keys."""
        spell = text_of if self.is_log else word_text
        return [{spell(key): key for key in level} for level in self.keys]

    def over(self, k: int) -> int:
        """The denominator of level k as the program prints it: k!, and for a logarithm k k! lcm(1, .., k)."""
        return k * factorial(k) * lcm(*range(1, k + 1)) if self.is_log else factorial(k)

    def divisor(self, key: Key, k: int) -> Fraction:
        """What the numerator of a key of level k is to be divided by."""
        if self.scale is None:
            return Fraction(self.over(k))
        letters = letters_of(key) if self.is_log else key
        return self.over(k) * prod((self.scale[letter - 1] for letter in letters), start=Fraction(1))

    @cached_property
    def divisors(self) -> list[list[tuple[int, int]]]:
        """For each level the divisors of its keys, as pairs of a numerator and a denominator."""
        return [[self.divisor(key, k).as_integer_ratio() for key in level] for k, level in enumerate(self.keys)]


@lru_cache(maxsize=64)
def frame(width: int, depth: int, scale: Scale, is_log: bool) -> Frame:
    """The frame of a kind, shape and scale, made once."""
    return Frame(width, depth, scale, is_log)


@dataclass(frozen=True)
class Told:
    """What an answer tells beside its levels: version, counts of nodes and rows, and the interval that was asked
    for.
    """

    version: int | None = None
    hits: int | None = None
    misses: int | None = None
    exps: int | None = None
    interval: Interval | None = None


class Value:
    """A signature or a logarithm: `value[key]` is an exact Fraction."""

    _is_log: ClassVar[bool]
    _first_level: ClassVar[int]

    def __init__(
        self,
        width: int,
        depth: int,
        lines: Sequence[str] = (),
        scale: Scale = None,
        told: Told = Told(),
        numerators: Mapping[int, dict[Key, int]] | None = None,
    ) -> None:
        """From the level lines of an answer, or from the nonzero numerators of each level."""
        self.width, self.depth, self.scale = width, depth, scale
        self.version, self.hits, self.misses, self.exps = told.version, told.hits, told.misses, told.exps
        self.interval = told.interval
        self._frame = frame(width, depth, scale, self._is_log)
        self._lines = lines
        self._numerators: dict[int, dict[Key, int]] = dict(numerators or {})

    def __getitem__(self, key: Any) -> Fraction:
        k, found = self._found(key)
        return self.numerators(k).get(found, 0) / self._frame.divisor(found, k)

    def _found(self, key: Any) -> tuple[int, Key]:
        """The level of a key as a user writes it, and the key itself."""
        raise NotImplementedError

    def over(self, k: int) -> int:
        """The denominator of level k as it is printed, scales left out."""
        return self._frame.over(k)

    def numerators(self, k: int) -> dict[Key, int]:
        """The nonzero numerators of level k by key, over `over(k)`: those of the whole rows, scales left out."""
        if k not in self._numerators:
            keys = self._frame.by_text[k]
            terms = (term.split("=") for term in self._lines[k - 1].split(" ")[4:])
            self._numerators[k] = {keys[text]: int(numerator) for text, numerator in terms}
        return self._numerators[k]

    def level(self, k: int) -> dict[Key, Fraction]:
        """The nonzero coefficients of level k by key."""
        divisor = self._frame.divisor
        return {key: numerator / divisor(key, k) for key, numerator in self.numerators(k).items()}

    def terms(self) -> dict[Key, Fraction]:
        """All nonzero coefficients by key."""
        return {key: x for k in self._levels() for key, x in self.level(k).items()}

    def keys(self, k: int | None = None) -> list[Key]:
        """All keys, level by level, or those of level k, in the order of the program."""
        return [key for level in (self._levels() if k is None else [k]) for key in self._frame.keys[level]]

    def dense(self) -> list[Fraction]:
        """All coefficients, zeros too, in the order of `keys()`."""
        terms = self.terms()
        return [terms.get(key, Fraction(0)) for key in self.keys()]

    def floats(self) -> list[float]:
        """`dense()` as floats, each the nearest to its exact value."""
        floats: list[float] = []
        for k in self._levels():
            numerators, keys = self.numerators(k), self._frame.keys[k]
            if self.scale is None:
                over = self.over(k)
                floats += [numerators.get(key, 0) / over for key in keys]
            else:
                floats += [
                    numerators.get(key, 0) * parts / over for key, (over, parts) in zip(keys, self._frame.divisors[k])
                ]
        return floats

    def array(self) -> numpy.ndarray:
        """`floats()` as an array of numpy."""
        import numpy

        return numpy.array(self.floats())

    def __eq__(self, other: object) -> bool:
        if not isinstance(other, Value) or type(self) is not type(other):
            return NotImplemented
        return (self.width, self.depth) == (other.width, other.depth) and self.terms() == other.terms()

    __hash__ = None  # type: ignore[assignment]

    def __repr__(self) -> str:
        texts = (
            f"{text_of(key) if self._is_log else word_text(key)}: {x}" for key, x in list(self.terms().items())[:8]
        )
        more = ", .." if len(self.terms()) > 8 else ""
        return f"<{type(self).__name__} ({self.width}, {self.depth}), version {self.version}: {', '.join(texts)}{more}>"

    def _levels(self) -> range:
        return range(self._first_level, self.depth + 1)


class Signature(Value):
    """Keys are words, tuples of letters from 1: `signature[1, 2]`, `signature[1]`, `signature[()]`.

    `array()` has the words level by level, each level in lexicographic order: RoughPy's order, with its leading 1;
    iisignature has the same order without the leading 1.
    """

    _is_log, _first_level = False, 0

    def numerators(self, k: int) -> dict[Word, int]:
        """As for all values; at level 0 the empty word has 1."""
        return super().numerators(k) if k else {(): 1}

    def _found(self, key: Word | int) -> tuple[int, Word]:
        word = key if isinstance(key, tuple) else (key,)
        if len(word) > self.depth or any(not 1 <= letter <= self.width for letter in word):
            raise KeyError(key)
        return len(word), word

    def __mul__(self, later: Signature) -> Signature:
        """Chen's product: the signature of this path and then the later one."""
        if not isinstance(later, Signature):
            return NotImplemented
        if (self.width, self.depth, self.scale) != (later.width, later.depth, later.scale):
            raise ValueError("the signatures have different shapes or scales")
        left, right = ([factor.numerators(k) for k in self._levels()] for factor in (self, later))
        levels = tensor_product(left, right, is_scaled=True)
        told = Told(interval=_joined(self.interval, later.interval))
        return Signature(self.width, self.depth, scale=self.scale, told=told, numerators=dict(enumerate(levels)))

    def log(self) -> dict[Word, Fraction]:
        """The nonzero coefficients of the logarithm by word, worked out here in Fractions: what `log_signature`
        expands to.
        """
        reduced: Levels = [{}, *(self.level(k) for k in range(1, self.depth + 1))]
        total: dict[Word, Fraction] = {}
        power: Levels = [{(): Fraction(1)}, *({} for _ in range(self.depth))]
        for m in range(1, self.depth + 1):
            power = tensor_product(power, reduced)
            for word, x in _flat(power):
                total[word] = total.get(word, Fraction(0)) + Fraction((-1) ** (m - 1), m) * x
        return {word: x for word, x in total.items() if x}


class LogSignature(Value):
    """Keys are members of the Hall set, as texts, `log["[1,2]"]`, or as nested pairs, `log[1, 2]` and `log[1]`.

    Other packages have other bases, in members or in signs (a Lyndon basis, say): compare by `expand()`, which has the
    coefficient at each word.
    """

    _is_log, _first_level = True, 1

    def texts(self) -> list[str]:
        """The texts of all members of the Hall set, in the order of `keys()`."""
        return [text_of(key) for key in self.keys()]

    def expand(self) -> dict[Word, Fraction]:
        """The nonzero coefficients of the same Lie element by word, which depend on no basis."""
        total: dict[Word, Fraction] = {}
        for member, x in self.terms().items():
            for word, coefficient in expansion(member).items():
                total[word] = total.get(word, Fraction(0)) + coefficient * x
        return {word: x for word, x in total.items() if x}

    def _found(self, key: str | Member) -> tuple[int, Member]:
        text = key if isinstance(key, str) else text_of(key)
        for k, by_text in enumerate(self._frame.by_text):
            if text in by_text:
                return k, by_text[text]
        raise KeyError(key)


def tensor_product(left: Levels, right: Levels, is_scaled: bool = False) -> Levels:
    """The product of two tensors, cut at their depth; scaled where level k has numerators over k!."""
    levels: Levels = [{} for _ in left]
    for i, prefixes in enumerate(left):
        for j, suffixes in enumerate(right[: len(left) - i]):
            factor, level = comb(i + j, i) if is_scaled else 1, levels[i + j]
            for u, a in prefixes.items():
                for v, b in suffixes.items():
                    level[u + v] = level.get(u + v, 0) + factor * a * b
    return [{word: x for word, x in level.items() if x} for level in levels]


def _flat(levels: Levels) -> list[tuple[Word, Any]]:
    return [term for level in levels for term in level.items()]


def _joined(first: Interval | None, later: Interval | None) -> Interval | None:
    """The interval of both, where the later one begins at the end of the first."""
    return (first[0], later[1]) if first and later and first[1] == later[0] else None

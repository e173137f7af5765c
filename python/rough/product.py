"""Products of exponentials of Lie elements, by the program as a calculator."""

from __future__ import annotations

from collections.abc import Iterable
from typing import Any

from .basis import check_shape
from .faults import refusal_of
from .program import Program
from .script import entries_of, scales_of
from .values import LogSignature

MOST_ELEMENTS = 4096


def cbh(
    width: int, depth: int, elements: Iterable[Any], scale: Any = None, program: Program | None = None
) -> LogSignature:
    """The logarithm of the product of the exponentials of Lie elements, the first one on the left.

    An element has the entries of a row: one for each letter, or coordinates, one for each member of the Hall set up
    to some degree, or a mapping from members or their texts. There are at most 4,096 of them.

        >>> import rough
        >>> loop = rough.cbh(2, 3, [[1, 0], [0, 1], [-1, 0], [0, -1]])
        >>> loop["[1,2]"], loop["[1,[1,2]]"]
        (Fraction(1, 1), Fraction(1, 2))
    """
    check_shape(width, depth)
    scales = scales_of(scale, width)
    lines = [f"shape {width} {depth}"]
    for element in elements:
        lines.append(" ".join(map(str, entries_of(element, width, depth, scales))))
    if len(lines) > 1 + MOST_ELEMENTS:
        raise ValueError(f"{len(lines) - 1:,} elements, more than {MOST_ELEMENTS:,}")
    text = (program or Program()).run("".join(f"{line}\n" for line in lines).encode(), ["--cbh"])
    written = text.split("\n")[2:]
    reply, _, rest = written[0].partition(" ")
    refusal = refusal_of(reply, rest)
    if refusal is not None:
        raise refusal
    return LogSignature(width, depth, written[:depth], scales)

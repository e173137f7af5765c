"""Exact signatures and log-signatures of streams, by the program `rough`.

    >>> import rough
    >>> stream = rough.Stream(width=2, depth=2)
    >>> stream.append(0, [1, 0]), stream.append("1/4", [0, 2]), stream.append(0.5, [3, -1])
    ('r1', 'r2', 'r3')
    >>> stream.signature(0, 1)[1, 2]
    Fraction(-1, 2)
    >>> stream.log_signature(0, 1)["[1,2]"]
    Fraction(-5, 2)

A row at the time `stop` is not in an interval from `start` up to `stop`. Only the standard library is needed; numpy
is used by `array()`, and matplotlib by `rough.plot`. The program is the one that the variable ROUGH names, or that
this repository has built, or `rough` on the PATH.
"""

from .basis import expansion, hall_set, text_of, words
from .faults import (
    Crash,
    Fault,
    Growth,
    NameTaken,
    NoRow,
    NoVersion,
    OrderFault,
    OutOfMemory,
    Overflow,
    ReadFault,
    Refusal,
    ScriptFault,
    SizeFault,
    WordsFault,
    WriteFault,
)
from .path import Clock, Path, Rounding
from .product import cbh
from .program import Program
from .script import Handle, Partition, Run, Script, Session, floor_time, tick_of
from .stream import LimitError, Query, Row, Stream, room
from .values import LogSignature, Signature

__all__ = [
    "Clock",
    "Crash",
    "Fault",
    "Growth",
    "Handle",
    "LimitError",
    "LogSignature",
    "NameTaken",
    "NoRow",
    "NoVersion",
    "OrderFault",
    "OutOfMemory",
    "Overflow",
    "Partition",
    "Path",
    "Program",
    "Query",
    "ReadFault",
    "Refusal",
    "Rounding",
    "Row",
    "Run",
    "Script",
    "ScriptFault",
    "Session",
    "Signature",
    "SizeFault",
    "Stream",
    "WordsFault",
    "WriteFault",
    "cbh",
    "expansion",
    "floor_time",
    "hall_set",
    "room",
    "text_of",
    "tick_of",
    "words",
]

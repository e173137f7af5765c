"""Pictures of coefficients, by matplotlib.

Each function answers axes, and draws into those that it is given; `axes.figure.savefig("name.svg")` saves them.
"""

from __future__ import annotations

from collections.abc import Sequence
from typing import TYPE_CHECKING, Any

from .basis import text_of, word_text
from .stream import Stream
from .values import Signature, Value

if TYPE_CHECKING:
    from matplotlib.axes import Axes

MOST_LABELS = 64


def lines(
    xs: Sequence[Any],
    values: Sequence[Value],
    keys: Sequence[Any],
    axes: Axes | None = None,
    labels: Sequence[str] | None = None,
) -> Axes:
    """The coefficients of some keys along xs, with a value for each x."""
    axes = _axes(axes)
    for key, label in zip(keys, labels or [_label(key, values) for key in keys]):
        axes.plot(xs, [float(value[key]) for value in values], label=label, linewidth=1.2)
    return _finished(axes)


def versions(
    stream: Stream,
    start: Any,
    stop: Any,
    keys: Sequence[Any],
    kind: str = "sig",
    axes: Axes | None = None,
    first: int = 0,
) -> Axes:
    """The coefficients over an interval at each version of the stream, from `first` on."""
    axes = _axes(axes)
    history = stream.history(start, stop, kind, versions=range(first, stream.version + 1))
    for key in keys:
        coefficients = [float(value[key]) for value in history.values()]
        axes.plot(
            list(history),
            coefficients,
            label=_label(key, list(history.values())),
            drawstyle="steps-post",
            marker=".",
            linewidth=1.2,
        )
    axes.set_xlabel("version")
    axes.xaxis.get_major_locator().set_params(integer=True)
    return _finished(axes)


def levels(value: Value, axes: Axes | None = None) -> Axes:
    """All coefficients of a value, level by level, each level over its greatest."""
    axes = _axes(axes)
    places: list[int] = []
    texts: list[str] = []
    at = 0
    for k in range(1, value.depth + 1):
        keys, level = value.keys(k), value.level(k)
        row = [float(level.get(key, 0)) for key in keys]
        greatest = max(map(abs, row), default=0.0) or 1.0
        axes.bar(
            range(at, at + len(row)),
            [x / greatest for x in row],
            width=0.9,
            label=f"level {k}, greatest {greatest:.3g}",
        )
        places += range(at, at + len(row))
        texts += [_label(key, [value]) for key in keys]
        at += len(row) + 1
    if len(places) > MOST_LABELS:
        places, texts = [], []
    axes.set_xticks(places, texts, rotation=90, fontsize="x-small")
    axes.set_ylabel("over the level's greatest")
    return _finished(axes)


def _axes(axes: Axes | None) -> Axes:
    if axes is not None:
        return axes
    import matplotlib.pyplot

    return matplotlib.pyplot.subplots(figsize=(8, 3.5), layout="constrained")[1]


def _finished(axes: Axes) -> Axes:
    axes.axhline(0, color="0.8", linewidth=0.8, zorder=0)
    axes.margins(x=0.02)
    axes.legend(frameon=False, fontsize="small", loc="lower center", bbox_to_anchor=(0.5, 1.0), ncols=4)
    return axes


def _label(key: Any, values: Sequence[Value]) -> str:
    """A key as the program writes it."""
    if isinstance(key, str):
        return key
    if values and isinstance(values[0], Signature):
        return word_text(key if isinstance(key, tuple) else (key,))
    return text_of(key)

"""Draws each kind of picture, and checks what it shows: pictures.py [FOLDER], which keeps them as PNG and SVG."""

import sys
import tempfile
from pathlib import Path

import rough
from chen import walk
from rough import plot


def pictures() -> dict:
    """Axes by name, each with the curves or bars that are due."""
    stream = rough.Stream.from_increments(walk(30, 2), depth=3)
    for row, entries in (("r3", [5, 5]), ("r7", [0, -9]), ("r20", [-8, 2])):
        stream.correct(row, entries)
    values = stream.signatures([(0, time) for time in range(1, 31)])
    drawn = {
        "time": plot.lines(range(1, 31), values, [1, 2, (1, 2), (2, 1)]),
        "versions": plot.versions(stream, 0, 30, ["1", "2", "[1,2]"], "log"),
        "levels": plot.levels(values[-1]),
        "coordinates": plot.levels(stream.log_signature(0, 30)),
    }
    labels = {name: [text.get_text() for text in axes.get_legend().get_texts()] for name, axes in drawn.items()}
    assert labels["time"] == ["(1)", "(2)", "(1,2)", "(2,1)"], labels
    assert labels["versions"] == ["1", "2", "[1,2]"], labels
    assert [len(drawn[name].patches) for name in ("levels", "coordinates")] == [2 + 4 + 8, 2 + 1 + 2]
    assert list(drawn["time"].lines[2].get_ydata()) == [float(value[1, 2]) for value in values]
    assert len(drawn["versions"].lines[0].get_xdata()) == stream.version + 1
    return drawn


def save(folder: Path) -> None:
    """Saves all pictures in both forms."""
    for name, axes in pictures().items():
        for form, start in (("png", b"\x89PNG"), ("svg", b"<?xml")):
            file = folder / f"{name}.{form}"
            axes.figure.savefig(file)
            assert file.read_bytes().startswith(start), file


if __name__ == "__main__":
    if len(sys.argv) > 1:
        save(Path(sys.argv[1]))
    else:
        with tempfile.TemporaryDirectory() as place:
            save(Path(place))

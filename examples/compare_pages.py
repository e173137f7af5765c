"""Compares the examples that the README and the manual show with those of this folder."""
import sys
from pathlib import Path

FOLDER = Path(__file__).parent
ROOT = FOLDER.parent
PAGES = (ROOT / "README.md").read_text() + (ROOT / "docs/FORMAT.md").read_text()
WHOLE = [
    "refused.script", "refused.text", "sessions.script", "sessions.text",
    "first.json", "generated.text", "read_json.py", "prices.py", "prices.text",
    "traps.script", "traps.text", "elements.script", "elements.text",
    "loop.elements", "loop.text",
]


def has_block(text):
    """Whether a block of a page ends with this text."""
    return "\n" + text + "```\n" in PAGES


def columns(heading, between):
    """The two columns of the code blocks from a heading of the README on, up to a sentence."""
    readme = (ROOT / "README.md").read_text()
    part = readme[readme.index(heading):readme.index(between)]
    lines = [line for block in part.split("```")[1::2] for line in block.strip("\n").split("\n")]
    left = [line[:30].rstrip() for line in lines if line[:30].strip()]
    right = [line[30:].rstrip() for line in lines if line[30:].strip()]
    return left, right


def lines_of(name):
    return (FOLDER / name).read_text().rstrip("\n").split("\n")


def main():
    wrong = [name for name in WHOLE if not has_block((FOLDER / name).read_text())]
    script, text = columns("## A tour", "A script may have several sessions")
    if script != lines_of("tour.script"):
        wrong.append("tour.script")
    if text != lines_of("tour.text"):
        wrong.append("tour.text")
    script, text = columns("A script may have several sessions", "A query that misses a node is two steps")
    if script != lines_of("sessions.script"):
        wrong.append("sessions.script in two columns")
    if text != lines_of("sessions.text"):
        wrong.append("sessions.text in two columns")
    script, text = columns("A row may also be a Lie element. Its entries", "Several logarithms can be asked for")
    if script != lines_of("area.script"):
        wrong.append("area.script")
    if text != lines_of("area.text"):
        wrong.append("area.text")
    script, text = columns("Several logarithms can be asked for", "A script may watch intervals")
    if script != lines_of("partition.script"):
        wrong.append("partition.script")
    if text != lines_of("partition.text"):
        wrong.append("partition.text")
    script, text = columns("A script may watch intervals", "With `--json` the answers")
    if script != lines_of("watch.script"):
        wrong.append("watch.script")
    if text != lines_of("watch.text"):
        wrong.append("watch.text")
    script, text = columns("With `--cbh` the program is", "`examples/walk.script` is a walk")
    if script != lines_of("loop.elements"):
        wrong.append("loop.elements in two columns")
    if text != lines_of("loop.text"):
        wrong.append("loop.text in two columns")
    if (FOLDER / "faults.table").read_text() not in PAGES:
        wrong.append("faults.table")
    for name in wrong:
        print(f"README.md, docs/FORMAT.md: not with examples/{name} as it is")
    sys.exit(1 if wrong else 0)


main()

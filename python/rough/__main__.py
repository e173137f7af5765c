"""python3 -m rough csv|check: a table as a script, or a script with its faults and refusals explained."""

from __future__ import annotations

import argparse
import sys
from collections.abc import Iterator
from typing import TextIO

from . import Fault, Handle, Path, Program, Query, Refusal, Run, Script


def main(words: list[str] | None = None) -> int:
    """Runs one of the tools; the status is 1 where something is wrong."""
    wish = _parser().parse_args(words)
    try:
        return wish.run(wish)
    except (ValueError, OSError) as bad:
        print(f"python3 -m rough {wish.tool}: {bad}", file=sys.stderr)
        return 1


def _parser() -> argparse.ArgumentParser:
    parser = argparse.ArgumentParser(prog="python3 -m rough", description=__doc__)
    tools = parser.add_subparsers(dest="tool", required=True)

    table = tools.add_parser(
        "csv", help="writes a script for a table; the report of its rounding goes to standard error"
    )
    table.set_defaults(run=write_script)
    table.add_argument("file", nargs="?", default="-", help="with a head; standard input without it")
    table.add_argument("--time", required=True, help="the column of the time: numbers or dates")
    table.add_argument("--time-format", help="as strptime has it; ISO dates need none")
    table.add_argument("--channels", help="columns, with commas between; all others without it")
    table.add_argument("--values", choices=["levels", "log", "increments"], default="levels")
    table.add_argument("--scale", default="auto", help="one for all channels, or one for each with commas between")
    table.add_argument("--clock", default="auto", help="rows, days, hours, minutes, seconds, or a number")
    table.add_argument("--missing", choices=["skip", "hold", "fail"], default="skip")
    table.add_argument("--delimiter", default=",", help="between cells")
    table.add_argument("--decimal", default=".", help="the decimal point, or comma")
    table.add_argument("--with-time", action="store_true", help="time, from 0 to 1, as the first channel")
    table.add_argument("--lead-lag", action="store_true", help="each channel twice, one following the other")
    table.add_argument("--depth", type=int, default=2)
    table.add_argument("--ask", choices=["none", "sig", "log"], default="none", help="ends with this query of all rows")

    check = tools.add_parser(
        "check", help="runs a script, explains its fault, and lists its refused commands with their lines"
    )
    check.set_defaults(run=check_script)
    check.add_argument("script", nargs="?", default="-", help="standard input without it")
    check.add_argument("words", nargs="*", help="of the program's command line, after --")
    return parser


def write_script(wish: argparse.Namespace) -> int:
    """Writes the script of a table, and reports its rounding."""
    with _opened(wish.file) as file:
        path = Path.from_csv(
            list(file),
            wish.time,
            wish.channels and wish.channels.split(","),
            wish.values,
            wish.time_format,
            wish.missing,
            wish.delimiter,
            wish.decimal,
        )
    path = path.with_time() if wish.with_time else path
    path = path.lead_lag() if wish.lead_lag else path
    scale = wish.scale.split(",") if "," in wish.scale else wish.scale
    stream, rounding = path.stream(wish.depth, scale, wish.clock, "log" if wish.ask == "log" else "sig")
    last = max((int(row.time) for row in stream.rows.values()), default=0) + 1
    queries = [] if wish.ask == "none" else [Query(wish.ask, 0, last)]
    head = "".join(f"# {line}\n" for line in str(rounding).split("\n"))
    sys.stdout.write(head + str(stream.script(queries)))
    print(rounding, file=sys.stderr)
    return 0


def check_script(wish: argparse.Namespace) -> int:
    """Runs a script, and tells what was refused."""
    with _opened(wish.script) as file:
        script = file.buffer.read()
    try:
        text = Program().run(script, wish.words)
    except Fault as fault:
        print(f"{wish.script}: {fault}", file=sys.stderr)
        return 1
    content = [
        (number, words)
        for number, line in enumerate(script.split(b"\n"), 1)
        if (words := line.split()) and not words[0].startswith(b"#")
    ]
    shape = Script(*map(int, content[0][1][1:]))
    commands = dict(_commands(content[1:], shape))
    run = Run(shape, text)
    refused = [(handle, answer) for handle in run if isinstance(answer := run.answer(handle), Refusal)]
    for handle, answer in refused:
        number, line = commands[handle]
        print(f"{wish.script}: line {number}, `{line}`: {answer}", file=sys.stderr)
    print(f"{len(commands)} commands, {run.versions} versions, {len(refused)} refused", file=sys.stderr)
    return 1 if refused else 0


def _commands(content: list[tuple[int, list[bytes]]], shape: Script) -> Iterator[tuple[Handle, tuple[int, str]]]:
    """The commands of a good script, each with the number of its line and its text; the script gets its sessions."""
    for number, words in content:
        line = b" ".join(words).decode("ascii")
        if words[0] == b"session":
            session = shape.session()
        elif words[0] == b"watch":
            shape.watches.append(line)
        else:
            for handle in session.commands(line):
                yield handle, (number, line)


def _opened(name: str) -> TextIO:
    """A file, or standard input, as text without a byte order mark."""
    return open(0 if name == "-" else name, encoding="utf-8-sig", newline="", closefd=name != "-")


if __name__ == "__main__":
    sys.exit(main())

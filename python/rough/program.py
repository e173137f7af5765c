"""The built program, as a function from a script to what is written."""

from __future__ import annotations

import os
import shutil
import subprocess
from collections.abc import Sequence
from pathlib import Path

from .faults import fault_of

BUILT = Path(__file__).resolve().parents[2] / "crates/rough/out/rough"


class Program:
    """The program at `path`, or what the variable ROUGH names, or what stands in this repository, or on the path."""

    def __init__(self, path: str | os.PathLike | None = None, timeout: float | None = None) -> None:
        found: str | os.PathLike | None = (
            path or os.environ.get("ROUGH") or (BUILT if BUILT.exists() else shutil.which("rough"))
        )
        if not found:
            raise FileNotFoundError("the program isn't found: build it (.ci/run), or let the variable ROUGH name it")
        self.path, self.timeout = os.fspath(found), timeout

    def run(self, script: bytes, words: Sequence[str] = ()) -> str:
        """What the program writes for a script, with these words on its command line; a fault is raised."""
        done = subprocess.run([self.path, *words], input=script, stdout=subprocess.PIPE, timeout=self.timeout)
        text = done.stdout.decode("ascii", "backslashreplace")
        if done.returncode != 0:
            raise fault_of(done.returncode, text, script, words)
        return text

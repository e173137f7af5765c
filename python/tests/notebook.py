"""Executes a notebook, and compares the texts that its cells write with those that are stored in it: notebook.py
NOTEBOOK
"""

import json
import os
import subprocess
import sys
import tempfile
from pathlib import Path


def texts(notebook: Path) -> list:
    """What each cell writes, pictures left out."""
    cells = json.loads(notebook.read_text())["cells"]
    return [
        [
            "".join(output.get("text") or output.get("data", {}).get("text/plain", ""))
            for output in cell.get("outputs", [])
        ]
        for cell in cells
    ]


def main(notebook: Path) -> int:
    """Tells the first cell that writes otherwise."""
    with tempfile.TemporaryDirectory() as folder:
        setting = {
            "IPYTHONDIR": folder,
            "JUPYTER_RUNTIME_DIR": folder,
            "MPLCONFIGDIR": folder,
            "PYTHONWARNINGS": "ignore",
        }
        command = [
            sys.executable,
            "-m",
            "nbconvert",
            "--to",
            "notebook",
            "--execute",
            "--output-dir",
            folder,
            "--output",
            "executed",
        ]
        done = subprocess.run([*command, notebook], env={**os.environ, **setting}, stderr=subprocess.PIPE, text=True)
        if done.returncode != 0:
            print(done.stderr, file=sys.stderr)
            return 1
        for place, (stored, written) in enumerate(
            zip(texts(notebook), texts(Path(folder) / "executed.ipynb"), strict=True)
        ):
            if stored != written:
                print(f"{notebook}, cell {place}: {written}, and not {stored}", file=sys.stderr)
                return 1
    return 0


if __name__ == "__main__":
    sys.exit(main(Path(sys.argv[1])))

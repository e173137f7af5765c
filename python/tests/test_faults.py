"""Each fault comes from the program once; the table of faults and their mends is as the program has it."""

import os
import re
import shutil
import stat
import subprocess
import tempfile
import unittest
from pathlib import Path

import rough
from rough.diagnosis import MENDS

REPOSITORY = Path(__file__).resolve().parents[2]
SCRIPT = b"shape 2 2\nsession 1\nappend a 0 2 3\nsig 0 1 0\n"


def script_of(cell: str) -> bytes:
    """The script of a cell of the table; a cell without a shape has one and a session before it."""
    lines = [line for count, line in re.findall(r"(?:(\d+) times )?`([^`]*)`", cell) for _ in range(int(count or 1))]
    lines = lines if lines[0].startswith("shape") else ["shape 2 2", "session 1", *lines]
    return "".join(line + "\n" for line in lines).encode()


class Scripts(unittest.TestCase):
    def test_table(self):
        rows = [line.split("|")[1:4] for line in (REPOSITORY / "examples/faults.table").read_text().splitlines()[2:]]
        for reason, bad, mend in rows:
            reason, script = reason.strip(" `"), script_of(bad)
            with self.assertRaises(rough.ScriptFault, msg=bad) as caught:
                rough.Program().run(script)
            self.assertEqual(caught.exception.reason, reason)
            self.assertEqual(caught.exception.line, script.count(b"\n") + (reason == "end"))
            rough.Program().run(script_of(mend))
        self.assertEqual({reason.strip(" `") for reason, _, _ in rows}, set(MENDS))

    def test_fields(self):
        for line, reason, field in (
            ("append a 0 1.5 2", "number", "1.5"),
            ("append a 1/10 1 2", "time", "1/10"),
            ("append 1a 0 1 2", "name", "1a"),
            ("append a 0 9223372036854775808 1", "number", "9223372036854775808"),
            ("append a 65536 1 1", "time", "65536"),
            ("sig 0 65537 0", "time", "65537"),
            ("sig 0 1 4294967296", "number", "4294967296"),
            ("sig 0 1 0 at 18446744073709551616", "number", "18446744073709551616"),
            ("sig 0 1 17", "resolution", "17"),
            ("parts 16 0 0", "fields", None),
            ("parts 16 0" + 66 * " 0", "fields", None),
            ("parts 4294967296 x 0 1", "number", "4294967296"),
            ("parts 16 18446744073709551616 0 1/10", "number", "18446744073709551616"),
            ("parts 16 4294967296 0 1/10 65537", "time", "1/10"),
            ("parts 17 0 0 65537", "time", "65537"),
            ("parts 17 0 0 2 1", "interval", None),
            ("parts 17 0 0 1 1 65536", "resolution", "17"),
            ("append a\\x 0 1 2", "name", "a\\x"),
            ("plot 0 1", "keyword", "plot"),
            ("session 3", "session", "3"),
            ("append a 0 2", "fields", None),
            ("sig 2 1 0", "interval", None),
        ):
            with self.assertRaises(rough.ScriptFault) as caught:
                rough.Program().run(f"shape 2 2\nsession 1\n{line}\n".encode())
            fault = caught.exception
            self.assertEqual((fault.line, fault.reason, fault.content, fault.field), (3, reason, line, field))

    def test_mends(self):
        for line, mend in (
            ("part 16 0 0 1", "`part` is none of shape, session, append, correct, remove, sig, log, parts and watch"),
            ("parts 16 0 1", "it hasn't the words that are due: parts resolution version, and 2 to 65 times"),
            ("parts 16 0 1 2 3/2", "times of `parts` may be equal, and never fall"),
        ):
            with self.assertRaises(rough.ScriptFault) as caught:
                rough.Program().run(f"shape 2 2\nsession 1\n{line}\n".encode())
            self.assertIn(mend, str(caught.exception))

    def test_byte(self):
        with self.assertRaises(rough.ScriptFault) as caught:
            rough.Program().run("shape 2 2\nsession 1\nappend a 0 −1 2\n".encode())
        self.assertEqual(caught.exception.field, r"\xe2\x88\x921")


class ManualPage(unittest.TestCase):
    def test_example(self):
        page = (REPOSITORY / "docs/rough.1").read_text()
        command, due = re.search(r"\.Bd .*\n\$ printf '(.*)' \| rough\n((?:.*\n)*?)\.Ed", page).groups()
        script = command.replace(r"\en", "\n")
        self.assertEqual(rough.Program().run(script.encode(), ["--order", "1,1,1"]), due)


class Statuses(unittest.TestCase):
    def setUp(self):
        folder = tempfile.TemporaryDirectory()
        self.addCleanup(folder.cleanup)
        self.folder = Path(folder.name)

    def wrapped(self, line: str) -> rough.Program:
        """A program that is a line of the shell, in which PROGRAM is the program."""
        path = self.folder / "wrapped"
        path.write_text(
            "#!/bin/sh\n" + line.replace("PROGRAM", f"'{os.path.abspath(rough.Program().path)}' \"$@\"") + "\n"
        )
        path.chmod(path.stat().st_mode | stat.S_IXUSR)
        return rough.Program(path)

    def assert_fault(self, kind: type, status: int, program: rough.Program, script: bytes = SCRIPT, words: tuple = ()):
        with self.assertRaises(kind) as caught:
            program.run(script, words)
        self.assertEqual(caught.exception.status, status)

    def test_words(self):
        self.assert_fault(rough.WordsFault, 2, rough.Program(), words=("--help",))

    def test_size(self):
        self.assert_fault(rough.SizeFault, 3, rough.Program(), b"\n" * 4194305)

    def test_reading(self):
        self.assert_fault(rough.ReadFault, 4, self.wrapped("exec PROGRAM < /"))

    @unittest.skipUnless(os.path.exists("/dev/full"), "/dev/full is missing")
    def test_writing(self):
        self.assert_fault(rough.WriteFault, 5, self.wrapped("exec PROGRAM > /dev/full"))

    @unittest.skipUnless(shutil.which("cc"), "cc is missing")
    def test_memory(self):
        library, count = self.folder / "refuse_memory.so", self.folder / "count"
        source = REPOSITORY / "tools/refuse_memory.c"
        subprocess.run(["cc", "-shared", "-fPIC", "-o", library, source], check=True)
        count.write_bytes(bytes(8))
        setting = f"LD_PRELOAD='{library}' REFUSE_COUNT='{count}' REFUSE_AT=1 REFUSE_LASTING=1"
        self.assert_fault(rough.OutOfMemory, 6, self.wrapped(f"export {setting}; exec PROGRAM"))

    def test_crash(self):
        self.assert_fault(rough.Crash, -11, self.wrapped("kill -SEGV $$"))
        self.assert_fault(rough.Crash, 7, self.wrapped("exit 7"))

    def test_no_program(self):
        with self.assertRaises(FileNotFoundError):
            rough.Program("/nowhere/rough").run(SCRIPT)


if __name__ == "__main__":
    unittest.main()

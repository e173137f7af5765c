"""A program that lies in one number, or reads a partition or a watch otherwise, is caught by the checks."""

import re
import unittest
from collections.abc import Callable
from itertools import pairwise

import rough
from agreement import check_answers, check_partition, check_watches, check_weight


class Liar(rough.Program):
    """The program, with one more in the first number of its text that the pattern finds."""

    def __init__(self, pattern: str) -> None:
        super().__init__()
        self.pattern = pattern

    def run(self, script, words=()):
        return re.sub(
            self.pattern, lambda found: found[1] + str(int(found[2]) + 1), super().run(script, words), count=1
        )


class Reader(rough.Program):
    """The program, with other lines in the place of a line `parts`, made of its resolution, version and times."""

    def __init__(self, reading: Callable[[str, str, list[str]], list[str]]) -> None:
        super().__init__()
        self.reading = reading

    def run(self, script, words=()):
        lines: list[str] = []
        for line in script.decode().splitlines():
            keyword, *fields = line.split()
            lines += self.reading(*fields[:2], fields[2:]) if keyword == "parts" else [line]
        return super().run("".join(line + "\n" for line in lines).encode(), words)


def as_due(resolution: str, version: str, times: list[str]) -> list[str]:
    """The queries that a partition stands for."""
    logs = [f"log {start} {stop} {resolution} at {version}" for start, stop in pairwise(times)]
    return [*logs, f"sig {times[0]} {times[-1]} {resolution} at {version}"]


class Lies(unittest.TestCase):
    def test_coefficient(self):
        with self.assertRaises(AssertionError):
            check_answers(1, 2, 3, Liar(r"(level 3 over 6 .*?=)(-?\d+)"))

    def test_coordinate(self):
        with self.assertRaises(AssertionError):
            check_answers(1, 2, 3, Liar(r"(level 3 over 108 .*?=)(-?\d+)"))

    def test_version_of_an_edit(self):
        with self.assertRaises(AssertionError):
            check_answers(1, 2, 3, Liar(r"(done )(7)\b"))

    def test_version_of_an_answer(self):
        with self.assertRaises(AssertionError):
            check_answers(1, 2, 3, Liar(r"(sig version )(\d+)"))

    def test_weight(self):
        with self.assertRaises(AssertionError):
            check_weight(Liar(r"(overflow )(\d+)"))

    def test_number_of_a_partition(self):
        for pattern in (r"(log version )(\d+)", r"(level 2 over 8 .*?=)(-?\d+)", r"(level 3 over 6 .*?=)(-?\d+)"):
            with self.assertRaises(AssertionError, msg=pattern):
                check_partition(1, 2, 3, Liar(pattern))

    def test_partition_read_otherwise(self):
        for name, reading in {
            "signature first": lambda r, v, times: [as_due(r, v, times)[-1], *as_due(r, v, times)[:-1]],
            "from the first time": lambda r, v, times: [
                *(f"log {times[0]} {time} {r} at {v}" for time in times[1:]),
                as_due(r, v, times)[-1],
            ],
            "a shorter whole": lambda r, v, times: [
                *as_due(r, v, times)[:-1],
                f"sig {times[0]} {times[-2]} {r} at {v}",
            ],
            "nothing rounded": lambda r, v, times: as_due("16", v, times),
            "another version": lambda r, v, times: as_due(r, "1", times),
        }.items():
            with self.assertRaises(AssertionError, msg=name):
                check_partition(1, 2, 3, Reader(reading))

    def test_version_of_a_watch(self):
        with self.assertRaises(AssertionError):
            check_watches(1, 2, 3, Liar(r"(watch \d+ versions )(\d+)"))

    def test_truth(self):
        check_watches(1, 2, 3)
        check_answers(1, 2, 3, Liar("(nothing)(0)"))
        check_partition(1, 2, 3, Reader(as_due))


if __name__ == "__main__":
    unittest.main()

"""Tables and sampled paths, and the tools of the shell."""

import io
import random
import re
import tempfile
import unittest
from contextlib import redirect_stderr, redirect_stdout
from datetime import date, datetime
from fractions import Fraction
from pathlib import Path

import rough
from chen import chen, walk
from rough.__main__ import main

try:
    import numpy
except ImportError:
    numpy = None

TABLE = "# prices\nday,a,b\n2020-01-01,1.25,10\n2020-01-03,1.5,8.5\n2020-01-04,,\n2020-01-02,1,11\n"


def table(text: str, **more) -> rough.Path:
    return rough.Path.from_csv(io.StringIO(text), "day", **more)


def increments_of(path: rough.Path) -> list[list[Fraction]]:
    levels = [sample.levels for sample in path.samples]
    return [[b - a for a, b in zip(*pair)] for pair in zip(levels, levels[1:])]


class Tables(unittest.TestCase):
    def test_levels(self):
        stream, rounding = table(TABLE).stream(2)
        self.assertEqual(
            (rounding.steps, rounding.skipped, rounding.level_errors, rounding.scales), (2, 1, [0, 0], (100, 10))
        )
        start, stop = rounding.clock("2020-01-01"), rounding.clock(date(2020, 1, 3))
        value = stream.signature(start, stop)
        self.assertEqual((value[1], value[2]), (Fraction("0.25"), Fraction("-1.5")))
        self.assertEqual(list(stream.rows), ["line3", "line6"])
        self.assertEqual(rounding.clock.back(stop), datetime(2020, 1, 3))

    def test_increments_stand_at_their_times(self):
        stream, rounding = table(TABLE, values="increments").stream(2)
        self.assertEqual(
            [(row.time, row.entries) for row in stream.rows.values()],
            [(0, (Fraction("1.25"), 10)), (1, (1, 11)), (2, (Fraction("1.5"), Fraction("8.5")))],
        )

    def test_logarithms(self):
        stream, rounding = table(TABLE, values="log", channels=["b"]).stream(1)
        self.assertAlmostEqual(float(stream.signature(0, 2)[1]), -0.16251892949777494)
        with self.assertRaisesRegex(ValueError, "line 3: -1 has no logarithm"):
            table("day,a\n0,1\n1,-1\n", values="log")

    def test_missing(self):
        held, _ = table(TABLE, missing="hold").stream(1)
        self.assertEqual(held.rows["line4"].entries, (0, 0))
        with self.assertRaisesRegex(ValueError, "line 5: a value is missing"):
            table(TABLE, missing="fail")

    def test_commas(self):
        path = table("day;a\n03.01.2020;1,5\n04.01.2020;2,5\n", delimiter=";", decimal=",", form="%d.%m.%Y")
        self.assertEqual((increments_of(path), path.is_dated), ([[1]], True))

    def test_bad_tables(self):
        for text, told in (
            ("day,a\n0,1,2\n", "line 2: 3 cells, and 2 in the head"),
            ("day,a\nx,1\n", "line 2: "),
            ("day,a\n0,1e\n", "line 2: "),
            ("time,a\n0,1\n", "no column day; there are time, a"),
            ("day,a\n0,1\n2020-01-01,1\n", "some times are dates"),
            ("", "there are none"),
            ("day,a\n", "no line has a value"),
        ):
            with self.assertRaisesRegex(ValueError, told):
                table(text)


class Rounded(unittest.TestCase):
    def test_bounds(self):
        draw = random.Random(3)
        levels = [[draw.uniform(-1, 1), draw.uniform(-1, 1)] for _ in range(13)]
        true = chen([[Fraction(b) - Fraction(a) for a, b in zip(*pair)] for pair in zip(levels, levels[1:])], 2, 4)
        for scale in (3, 10, 100, [7, 1000], [10**6, 3], "auto"):
            stream, rounding = rough.Path(range(13), levels).stream(4, scale)
            value = stream.signature(0, 13)
            for word, x in true.items():
                self.assertLessEqual(abs(value[word] - x), rounding.bound(word), (scale, word))
                self.assertLessEqual(rounding.bound(word), rounding.level_bound(len(word)) if word else 0)

    def test_errors_of_levels_do_not_add_up(self):
        levels = [[i / 3] for i in range(1000)]
        stream, rounding = rough.Path(range(1000), levels).stream(1, 10)
        self.assertLessEqual(abs(stream.signature(0, 1000)[1] - 333), Fraction(1, 10))
        self.assertLessEqual(rounding.level_errors[0], Fraction(1, 20))

    def test_scales_fit(self):
        levels = [[x / 3 for x in row] for row in walk(50, 2)]
        for kind, ask in (("sig", rough.Stream.signature), ("log", rough.Stream.log_signature)):
            for depth in (1, 4, 8):
                stream, rounding = rough.Path(range(50), levels).stream(depth, kind=kind)
                ask(stream, 0, 50)
                self.assertGreater(10 * rounding.weight, min(rounding.room, 2**63) / 10)

    def test_windows_have_a_finer_scale(self):
        path = rough.Path(range(50), [[x / 3 for x in row] for row in walk(50, 2)])
        stream, rounding = path.stream(8, longest=5)
        self.assertGreater(min(rounding.scales), max(path.scales(8)))
        stream.signatures([(i, i + 5) for i in range(45)])

    def test_scales_that_do_not_fit(self):
        path = rough.Path(range(3), [[0], [1], [3]])
        with self.assertRaisesRegex(ValueError, "the greatest scales that fit are 20000"):
            path.stream(8, 21000)
        stream, _ = path.stream(8, 20000)
        self.assertEqual(stream.signature(0, 3)[1], 3)
        with self.assertRaisesRegex(ValueError, "steps don't fit"):
            rough.Path(range(60100), [[0]] * 60100).scales(8)

    def test_clocks(self):
        path = rough.Path(["2020-01-01T00:00", "2020-01-01T12:00", "2020-01-05T00:00"], [[0], [1], [2]])
        self.assertEqual([path.clock().unit, path.clock("hours").unit, path.clock(7200).unit], [60, 3600, 7200])
        self.assertEqual([path.clock("hours")(time) for time in ("2020-01-01T12:00", "2020-01-05")], [12, 96])
        rows = path.clock("rows")
        self.assertEqual((rows("2020-01-05"), rows.back(1)), (2, datetime(2020, 1, 1, 12)))
        self.assertEqual(rough.Path([0, 1e6], [[0], [1]]).clock().unit, 100)
        _, rounding = rough.Path([0, 0.1, 0.1 + 1e-9, 1], [[0], [1], [2], [3]]).stream(1)
        self.assertEqual((rounding.rounded_times, rounding.shared_ticks), (2, 1))
        with self.assertRaisesRegex(ValueError, "not at -1"):
            rough.Path([0, 1], [[0], [1]]).stream(1, clock=rough.Clock(Fraction(1), Fraction(1), False))
        for clock in ("days", "rows"):
            with self.assertRaises(ValueError):
                rough.Path([0, 1], [[0], [1]]).clock(clock)(7)

    @unittest.skipUnless(numpy, "numpy is missing")
    def test_arrays_of_samples(self):
        times = numpy.array(["2020-01-01", "2020-01-02T06:00", "2020-01-05"], dtype="datetime64[ns]")
        path = rough.Path(times, numpy.array([[0.5, 1], [1, 2], [1.5, 4]]))
        stream, rounding = path.stream(2, scale=numpy.array([2, 1]), clock="hours")
        self.assertEqual([row.time for row in stream.rows.values()], [0, 30])
        self.assertEqual(stream.signature(0, 96).floats()[1:3], [1, 3])


class Augmented(unittest.TestCase):
    def test_with_time(self):
        path = rough.Path([0, 1, 4], [[0], [1], [3]]).with_time()
        self.assertEqual(
            (path.channels, increments_of(path)), (["time", "x1"], [[Fraction(1, 4), 1], [Fraction(3, 4), 2]])
        )

    def test_lead_lag(self):
        path = rough.Path([0, 1, 2], [[0], [1], [3]]).lead_lag()
        self.assertEqual(
            (path.channels, increments_of(path)), (["x1 lead", "x1 lag"], [[1, 0], [0, 1], [2, 0], [0, 2]])
        )
        stream, _ = path.stream(2)
        value = stream.signature(0, 2)
        self.assertEqual(value[1, 2] - value[2, 1], 1**2 + 2**2)
        self.assertEqual(stream.signature(0, 1).dense()[1:3], [1, 1])


class Shell(unittest.TestCase):
    def shell(self, *words: str, files: tuple[str, ...] = ()) -> tuple[int, str, str]:
        """The status of a tool with texts as files, and what it writes."""
        with tempfile.TemporaryDirectory() as folder, redirect_stdout(io.StringIO()) as out, redirect_stderr(
            io.StringIO()
        ) as errors:
            paths = [Path(folder) / f"file{i}" for i in range(len(files))]
            for path, text in zip(paths, files):
                path.write_text(text, encoding="utf-8")
            status = main([*words, *map(str, paths)])
        return status, out.getvalue(), errors.getvalue()

    def test_csv(self):
        status, script, report = self.shell(
            "csv", "--time", "day", "--depth", "3", "--ask", "log", "--with-time", files=("\ufeff" + TABLE,)
        )
        self.assertEqual(status, 0)
        self.assertIn("a: scale 100, exact\nb: scale 10, exact\n", report)
        self.assertIn("\nshape 3 3\nsession 1\nappend line3 0 ", script)
        self.assertTrue(
            rough.Program()
            .run(script.encode())
            .startswith("shape 3 3\nsession 1\n1 done 1\n2 done 2\n3 log version 2 ")
        )

    def test_csv_refused(self):
        self.assertEqual(self.shell("csv", "--time", "date", files=(TABLE,))[0], 1)
        self.assertIn(
            "greatest scales that fit", self.shell("csv", "--time", "day", "--scale", "1e20,1", files=(TABLE,))[2]
        )

    def test_check(self):
        good = "shape 1 1\nsession 1\nappend a 0 1\n# comment\n\nappend a 1 1\nsession 2\nsig 0 1 0 at 7\n"
        status, _, told = self.shell("check", files=(good,))
        self.assertEqual(status, 1)
        self.assertIn("line 6, `append a 1 1`: session 1, command 2: a row of this name is live", told)
        self.assertIn("line 8, `sig 0 1 0 at 7`: session 2, command 1: the last version is", told)
        self.assertIn("3 commands, 1 versions, 2 refused", told)
        self.assertEqual(self.shell("check", files=("shape 1 1\nsession 1\nsig 0 1 0\n",))[0], 0)
        self.assertIn(
            "line 1, `shape 1`: it hasn't the words that are due: shape W N",
            self.shell("check", files=("shape 1\n",))[2],
        )

    def test_check_of_a_partition(self):
        commands = ("append a 0 60097", "parts\t16 1 0 0 1", "remove b", "parts 16 2 0 1", "append a 0 1")
        status, _, told = self.shell("check", files=("\n".join(("shape 1 8", "session 1", *commands)) + "\n",))
        self.assertEqual(status, 1)
        self.assertEqual(
            re.findall(r"line (\d), `(.*)`: session 1, command (\d): ", told),
            [
                ("4", "parts 16 1 0 0 1", "3"),
                ("4", "parts 16 1 0 0 1", "4"),
                ("5", "remove b", "5"),
                ("6", "parts 16 2 0 1", "6"),
                ("6", "parts 16 2 0 1", "7"),
                ("7", "append a 0 1", "8"),
            ],
        )
        self.assertIn("8 commands, 1 versions, 6 refused", told)


if __name__ == "__main__":
    unittest.main()

"""Streams and their versions, and scripts of several sessions."""

import json
import unittest
from decimal import Decimal
from fractions import Fraction
from functools import reduce
from itertools import pairwise
from operator import mul

import rough
from chen import walk


class Versions(unittest.TestCase):
    def test_history(self):
        stream = rough.Stream(1, 2)
        name = stream.append(0, [1])
        self.assertEqual((stream.correct(name, [2]), stream.remove(name)), (2, 3))
        self.assertEqual([value[1] for value in stream.history(0, 1).values()], [0, 1, 2, 0])
        self.assertEqual(stream.signature(0, 1, at=1)[1], 1)
        self.assertEqual((stream.changes(0, 1), stream.changes(1, 2)), ([1, 2, 3], []))
        self.assertEqual(stream.history(0, 1, "log", versions=[2])[2][1], 2)

    def test_placed_queries_are_those_at_a_version(self):
        stream = rough.Stream.from_increments(walk(12, 2), depth=3)
        for i in range(1, 12, 2):
            stream.correct(f"r{i}", [i, -i])
        script = stream.script()
        handles = [script.sessions[0].signature(0, 12, at=version) for version in range(stream.version + 1)]
        run = script.run()
        self.assertEqual([run[handle] for handle in handles], list(stream.history(0, 12).values()))

    def test_rows_and_times(self):
        stream = rough.Stream(1, 1)
        for time in (1, 0.5, "3/4", Decimal("0.25"), Fraction(1, 65536)):
            stream.append(time, [1])
        self.assertEqual([row.time for row in stream.rows.values()], [1, 0.5, 0.75, 0.25, Fraction(1, 65536)])
        self.assertEqual(rough.floor_time("0.1"), Fraction(6553, 65536))
        self.assertEqual(stream.append(2, [1], name="r7"), "r7")
        self.assertEqual([stream.append(2, [1]), stream.append(2, [1])], ["r6", "r8"])


class Listener(rough.Program):
    """The program, which keeps the lines of the scripts that it runs."""

    def __init__(self) -> None:
        super().__init__()
        self.scripts: list[list[str]] = []

    def run(self, script, words=()):
        self.scripts.append(script.decode().splitlines())
        return super().run(script, words)


class Watches(unittest.TestCase):
    def test_versions(self):
        stream = rough.Stream.from_increments([[5], [7]], times=["1/2", 1], depth=1)
        stream.correct("r1", [6])
        stream.remove("r2")
        self.assertEqual(stream.watch([(0, 1), (1, 2), (2, 3)]), [[1, 3], [2, 4], []])
        self.assertEqual(stream.watch([("1/4", "3/4")], resolution=0), [[]])
        self.assertEqual(stream.watch([(0, 1)] * 65), [[1, 3]] * 65)
        self.assertEqual(stream.watch([]), [])

    def test_of_a_script(self):
        script = rough.Script(1, 1)
        self.assertEqual([script.watch(0, 1), script.watch("3/2", 2, 1)], [1, 2])
        script.session().append("a", 0, [1])
        script.session().append("b", "3/2", [1])
        self.assertEqual(str(script).splitlines()[1:3], ["watch 0 1 16", "watch 3/2 2 1"])
        run = script.run()
        self.assertEqual(sorted([run.touched(1), run.touched(2)]), [[1], [2]])
        self.assertEqual(run.replay().touched(2), run.touched(2))
        self.assertRaises(IndexError, run.touched, 3)
        self.assertRaises(ValueError, script.watch, 2, 1)
        for _ in range(62):
            script.watch(0, 1)
        self.assertRaises(ValueError, script.watch, 0, 1)


class Partitions(unittest.TestCase):
    def test_values(self):
        stream = rough.Stream.from_increments(walk(20, 2), depth=4, scale=[2, 10])
        times = [0, "1/2", 3, 3, Fraction(19, 2), 20]
        logs, whole = stream.partition(times)
        parts = stream.signatures(list(pairwise(times)))
        self.assertEqual([log.expand() for log in logs], [part.log() for part in parts])
        self.assertEqual(whole, reduce(mul, parts))
        self.assertEqual((logs[3].interval, logs[2].interval), ((3, Fraction(19, 2)), (3, 3)))
        self.assertEqual((whole.interval, whole.version, logs[2].terms()), ((0, 20), 20, {}))

    def test_one_line(self):
        program = Listener()
        stream = rough.Stream.from_increments(walk(6, 2), depth=3, program=program)
        stream.correct("r3", [1, 1])
        logs, whole = stream.partition([0, 2, 6], resolution=0, at=6)
        self.assertEqual(program.scripts[0][-1], "parts 0 6 0 2 6")
        self.assertEqual(len(program.scripts[0]), 2 + 6 + 1)
        self.assertEqual(stream.log_signatures([(0, 2), (2, 6)], 0, at=6), logs)
        self.assertEqual(stream.signature(0, 6, 0, at=6), whole)
        self.assertEqual(stream.partition([0, 2, 6], resolution=0, at=6), (logs, whole))
        self.assertEqual(len(program.scripts), 1)
        self.assertEqual(stream.partition([0, 2, 4], resolution=0, at=6).logs[0], logs[0])
        self.assertEqual(program.scripts[1][-2:], ["log 2 4 0", "sig 0 4 0"])

    def test_handles_count_commands(self):
        script = rough.Script(2, 2)
        one, two = script.session(), script.session()
        one.append("a", 0, [1, 0])
        one.append("b", "1/2", [0, 1])
        logs, whole = one.partition([0, "1/2", 1], resolution=1, at=2)
        self.assertEqual((logs, whole), ([(1, 3), (1, 4)], (1, 5)))
        self.assertEqual((one.remove("a"), one.line("parts 1 3 0 1"), one.remove("b")), ((1, 6), (1, 7), (1, 9)))
        self.assertEqual(two.partition(range(65), at=0).whole, (2, 65))
        self.assertEqual(one.lines[2], "parts 1 2 0 1/2 1")
        run = script.run()
        self.assertEqual([run[log].texts() and run[log].terms() for log in logs], [{1: 1}, {2: 1}])
        self.assertEqual(run[whole].terms(), {(): 1, (1,): 1, (2,): 1, (1, 1): 0.5, (1, 2): 1, (2, 2): 0.5})
        self.assertEqual((run[logs[1]].interval, run[whole].interval), ((0.5, 1), (0, 1)))
        self.assertEqual((run[rough.Handle(1, 9)], len(list(run))), (4, 9 + 65))
        self.assertEqual(run.replay().order, run.order)

    def test_more_than_64_parts(self):
        program = Listener()
        stream = rough.Stream.from_increments(walk(65, 2), depth=3, program=program)
        most, more = stream.partition(range(65)), stream.partition([time + Fraction(1, 2) for time in range(66)])
        self.assertEqual([len(script) - 2 - 65 for script in program.scripts], [1, 66])
        self.assertEqual((len(most.logs), len(more.logs)), (64, 65))
        self.assertEqual([log[1] for log in more.logs], [row.entries[0] for row in stream.rows.values()][1:] + [0])
        self.assertEqual(more.whole, stream.signature(1, 65))

    def test_limits(self):
        program = Listener()
        stream = rough.Stream.from_increments([[1] * 12] * 4240, depth=3, program=program)
        stream.partition([0, 1, 2, 3])
        self.assertEqual([len(script) - 2 for script in program.scripts], [4241])
        logs, whole = stream.partition([4, 5, 6, 7, 8])
        self.assertEqual([len(script) - 2 for script in program.scripts[1:]], [4244, 4241])
        self.assertEqual((logs[3][12], whole[12]), (1, 4))

    def test_refused(self):
        script = rough.Script(1, 8)
        session = script.session()
        session.append("a", 0, [60096])
        session.append("b", 1, [1])
        logs, whole = session.partition([0, 1, 2], at=3)
        fits, too_great = session.partition([1, 2], at=2), session.partition([0, 2], at=2)
        run = script.run()
        for handle in (*logs, whole):
            with self.assertRaises(rough.NoVersion) as caught:
                run[handle]
            self.assertEqual((caught.exception.command, caught.exception.version), (handle.command, 2))
        self.assertEqual((run[fits.logs[0]][1], run[fits.whole][1]), (1, 1))
        self.assertEqual(run.answer(too_great.whole).weight, 60097)
        for times, resolution in (((0,), 16), (range(66), 16), ((0, 2, 1), 16), ((0, 1), 17), ((0, 0.1), 16)):
            with self.assertRaises(ValueError):
                session.partition(times, resolution, at=2)
        self.assertEqual(session.count, 9)

    def test_refused_by_the_stream(self):
        stream = rough.Stream.from_increments([[60096], [1]], depth=8)
        with self.assertRaises(rough.NoVersion):
            stream.partition([0, 1], at=3)
        for times in ([0, 2], [time - 1 for time in range(1, 80)]):
            with self.assertRaises(rough.Overflow):
                stream.partition(times)
        for times, resolution in (((), 16), ((0,), 16), ((0, 2, 1), 16), ((0, 1), 17), ((0, 65537), 16)):
            with self.assertRaises(ValueError):
                stream.partition(times, resolution)


class Refused(unittest.TestCase):
    def test_by_the_client(self):
        stream = rough.Stream(1, 8)
        stream.append(0, [60096], "a")
        with self.assertRaises(rough.NameTaken):
            stream.append(2, [1], "a")
        with self.assertRaises(rough.NoRow):
            stream.correct("c", [1])
        with self.assertRaises(rough.NoVersion):
            stream.signature(0, 1, at=3)
        for time, entries, name in (
            (0.1, [1], None),
            (-1, [1], None),
            (65536, [1], None),
            (0, [1, 2], None),
            (0, [0.5], None),
            (0, [2**63], None),
            (0, [float("inf")], None),
            (0, [1], "1a"),
        ):
            with self.assertRaises(ValueError):
                stream.append(time, entries, name)
        for start, stop, resolution in ((1, 0, 16), (0, 1, 17), (0, 65537, 0)):
            with self.assertRaises(ValueError):
                stream.signature(start, stop, resolution)
        for width, depth in ((13, 1), (1, 9), (3, 8)):
            with self.assertRaises(ValueError):
                rough.Stream(width, depth)
        self.assertEqual((stream.version, list(stream.rows)), (1, ["a"]))

    def test_by_the_program(self):
        script = rough.Script(1, 8)
        session = script.session()
        session.append("a", 0, [60096])
        session.append("b", 1, [1])
        handles = {
            rough.NameTaken: session.append("a", 2, [1]),
            rough.NoRow: session.remove("c"),
            rough.NoVersion: session.signature(0, 1, at=3),
            rough.Overflow: session.signature(0, 2),
        }
        run = script.run()
        for kind, handle in handles.items():
            with self.assertRaises(kind) as caught:
                run[handle]
            self.assertEqual((caught.exception.session, caught.exception.command), handle)
        self.assertEqual(
            (run.answer(handles[rough.NoVersion]).version, run.answer(handles[rough.Overflow]).weight), (2, 60097)
        )

    def test_kept(self):
        stream = rough.Stream.from_increments([[60097], [1]], depth=8)
        kept = stream.ask([("sig", 0, 2), ("sig", 1, 2)], refusals="keep")
        self.assertEqual((kept[0].weight, kept[1][1]), (60098, 1))


class Room(unittest.TestCase):
    def test_rooms(self):
        self.assertEqual((rough.room(1, 8), rough.room(1, 8, "log"), rough.room(2, 8, "log")), (60096, 6184, 3189))
        for kind in ("sig", "log"):
            for width, depth in ((2, 4), (3, 3)):
                room = rough.room(width, depth, kind)
                stream = rough.Stream.from_increments([[room] + [0] * (width - 1), [1] * width], depth=depth)
                fits, too_great = stream.ask([(kind, 0, 1), (kind, 0, 2)], refusals="keep")
                self.assertFalse(isinstance(fits, rough.Refusal))
                self.assertIsInstance(too_great, rough.Overflow)

    def test_many_queries_take_several_scripts(self):
        stream = rough.Stream.from_increments([[1] * 12], depth=3)
        values = stream.signatures([(0, Fraction(i, 65536)) for i in range(1, 2101)])
        self.assertTrue(all(value[1] == 1 for value in values))

    def test_too_many_edits(self):
        stream = rough.Stream.from_increments([[1] * 12] * 4244, depth=3)
        with self.assertRaises(rough.LimitError):
            stream.signature(0, 1)
        self.assertEqual(stream.signature(0, 1, at=4243)[1], 1)

    def test_too_many_bytes(self):
        stream = rough.Stream.from_increments([[-(2**63)] * 12] * 17000, depth=1)
        with self.assertRaises(rough.LimitError):
            stream.signature(0, 1)


class Sessions(unittest.TestCase):
    def test_order(self):
        script = rough.Script(1, 2)
        one, two = script.session(), script.session()
        one.append("a", 0, [1])
        first, second = one.signature(0, 1, 0), one.signature(0, 1, 0)
        other = two.append("b", "1/2", [1])
        run = script.run(order=[1, 1, 2, 1, 1, 1], cache=2)
        self.assertEqual((run[first].version, run[second].version, run[other], run.versions), (1, 2, 2, 2))
        self.assertEqual((run[first].misses, run[second].hits, run[second].exps), (1, 0, 2))
        self.assertEqual(list(run), [(1, 1), (1, 2), (1, 3), (2, 1)])
        with self.assertRaises(rough.OrderFault) as caught:
            script.run(order=[1, 1, 2])
        self.assertEqual(caught.exception.place, 4)

    def test_replay(self):
        script = rough.Script(2, 3)
        for number in range(4):
            session = script.session()
            for i, row in enumerate(walk(20, 2, number)):
                session.append(f"s{number}_{i}", i, row)
                session.log_signature(0, i + 1)
        run = script.run()
        self.assertEqual(run.replay().order, run.order)
        self.assertEqual(run.versions, 80)

    def test_text_and_json_say_the_same(self):
        script = rough.Script(2, 4)
        session = script.session()
        for i, row in enumerate(walk(9, 2)):
            session.append(f"a{i}", i, row)
        signature, logarithm = session.signature(0, 9), session.log_signature(0, 9)
        run = script.run()
        answers = json.loads(rough.Program().run(str(script).encode(), ["--json"]))["sessions"][0]
        for handle, spell in ((signature, rough.basis.word_text), (logarithm, rough.text_of)):
            for k, level in enumerate(answers[handle.command - 1]["levels"], 1):
                due = [[spell(key), str(numerator)] for key, numerator in run[handle].numerators(k).items()]
                self.assertEqual((level["over"], level["terms"]), (str(run[handle].over(k)), due))

    def test_no_steps(self):
        script = rough.Script(1, 1)
        script.session()
        self.assertEqual((script.run(order=[]).order, script.run().versions), ([], 0))


if __name__ == "__main__":
    unittest.main()

"""Values against the independent check, and what is worked out from them."""

import unittest
from fractions import Fraction

import rough
from agreement import check_answers, check_partition, check_watches, check_weight
from chen import chen, logarithm, walk

try:
    import numpy
except ImportError:
    numpy = None


class Agreement(unittest.TestCase):
    def test_random_streams(self):
        for seed, (width, depth) in enumerate([(1, 8), (2, 1), (2, 5), (3, 3), (5, 2)], 1):
            check_answers(seed, width, depth)

    def test_rows_that_are_lie_elements(self):
        for seed, (width, depth) in enumerate([(1, 3), (2, 1), (2, 5), (3, 3), (4, 2)], 1):
            check_answers(seed, width, depth, max_degree=3)

    def test_partitions(self):
        for seed, (width, depth) in enumerate([(1, 8), (2, 1), (2, 5), (3, 3), (5, 2)], 1):
            check_partition(seed, width, depth)
            check_watches(seed, width, depth)

    def test_weight_of_lie_elements(self):
        for entries in ([60097, 0], [0, 0, 225720577], [1000, -70000, 7, 10**13, 5], [3, 4, 5, 6, 7, 10**16, 1, 2]):
            stream = rough.Stream(2, 8)
            name = stream.append(0, entries)
            (refusal,) = stream.ask([("sig", 0, 1)], refusals="keep")
            self.assertIsInstance(refusal, rough.Overflow)
            self.assertEqual(refusal.weight, rough.basis.weight_of(entries, 2, 8))
        stream.correct(name, [0, 0, 225720576])
        fitting = stream.signature(0, 1)
        self.assertEqual((fitting[1, 2], fitting[2, 1]), (225720576, -225720576))

    def test_each_shape_at_its_depth(self):
        for width, depth in ((1, 8), (2, 4), (3, 3), (12, 2)):
            rows = walk(12, width)
            value = rough.Stream.from_increments(rows, depth=depth).signature(0, 12)
            self.assertEqual(value.dense(), list(chen(rows, width, depth).values()))

    def test_products_of_exponentials(self):
        for width, depth in ((1, 8), (2, 5), (3, 3), (12, 2)):
            elements = [*walk(5, width), {"1": 3}, [*range(1, rough.basis.entry_counts(width, depth)[-1] + 1)]]
            moves = [rough.script.entries_of(element, width, depth, None) for element in elements]
            due = chen(moves, width, depth)
            self.assertEqual(rough.cbh(width, depth, elements).expand(), logarithm(due, depth))

    def test_products_that_are_nothing(self):
        self.assertEqual(rough.cbh(2, 4, []).terms(), {})
        self.assertEqual(rough.cbh(2, 3, [[1, 2, 3], [-1, -2, -3]]).terms(), {})
        half = rough.cbh(2, 2, [["1/2", 0], [0, "1/2"]], scale=2)
        self.assertEqual((half[1], half[2], half["[1,2]"]), (Fraction(1, 2), Fraction(1, 2), Fraction(1, 8)))

    def test_products_that_are_refused(self):
        with self.assertRaises(rough.Overflow) as raised:
            rough.cbh(1, 8, [[6185]])
        self.assertEqual((raised.exception.weight, raised.exception.session), (6185, None))
        self.assertEqual(rough.cbh(1, 1, [[1]] * 4096)[1], 4096)
        for elements in ([[1]] * 4097, [[1, 2]], [["1/2"]]):
            with self.assertRaises(ValueError):
                rough.cbh(1, 1, elements)

    def test_weight(self):
        check_weight()

    def test_scales_divide(self):
        rows = [[Fraction(3, 2), Fraction(1, 5)], [-1, Fraction(7, 10)]]
        for scale in (10, [2, 10], [Fraction(2), "10"]):
            stream = rough.Stream.from_increments(rows, depth=3, scale=scale)
            value, due = stream.signature(0, 2), chen(rows, 2, 3)
            self.assertEqual(value.dense(), list(due.values()))
            self.assertEqual(value.floats(), [float(x) for x in due.values()])
            self.assertEqual(stream.log_signature(0, 2).expand(), value.log())
            self.assertEqual(stream.rows["r1"].entries, tuple(rows[0]))


class Keys(unittest.TestCase):
    def test_words(self):
        value = rough.Stream.from_increments([[2, 3]]).signature(0, 1)
        self.assertEqual((value[()], value[1], value[(2,)], value[1, 2]), (1, 2, 3, 3))
        self.assertEqual(value.level(2), {(1, 1): 2, (1, 2): 3, (2, 1): 3, (2, 2): Fraction(9, 2)})
        self.assertEqual((value.over(2), value.numerators(2)[2, 2]), (2, 9))
        for word in (3, (1, 1, 1), (0,)):
            with self.assertRaises(KeyError):
                value[word]

    def test_hall_set(self):
        self.assertEqual([len(level) for level in rough.hall_set(2, 5)], [0, 2, 1, 2, 3, 6])
        self.assertEqual([sum(map(len, rough.hall_set(12, 3))), sum(map(len, rough.hall_set(4, 5)))], [650, 294])
        log = rough.Stream.from_increments([[1, 0], [0, 1]], depth=4).log_signature(0, 2)
        self.assertEqual(log.texts()[:5], ["1", "2", "[1,2]", "[1,[1,2]]", "[2,[1,2]]"])
        self.assertEqual(
            (log[1], log[1, 2], log["[1,2]"], log["[2,[1,[1,2]]]"]),
            (1, Fraction(1, 2), Fraction(1, 2), Fraction(-1, 24)),
        )
        with self.assertRaises(KeyError):
            log["[2,1]"]

    def test_floats_are_nearest(self):
        value = rough.Stream.from_increments(walk(30, 2), depth=5).signature(0, 30)
        self.assertEqual(value.floats(), [float(x) for x in value.dense()])

    @unittest.skipUnless(numpy, "numpy is missing")
    def test_arrays(self):
        for kind in (float, int, numpy.float32):
            rows = numpy.array(walk(20, 2), dtype=kind)
            value = rough.Stream.from_increments(rows, depth=3).signature(0, 20)
            self.assertEqual(value.array().tolist(), value.floats())
            self.assertEqual(value.array().shape, (15,))

    @unittest.skipUnless(numpy, "numpy is missing")
    def test_arrays_against_floats_of_numpy(self):
        rows = numpy.array(walk(20, 3), dtype=float) / 8
        value = rough.Stream.from_increments(rows, depth=3, scale=8).signature(0, 20)
        one, two, three = numpy.zeros(3), numpy.zeros((3, 3)), numpy.zeros((3, 3, 3))
        for x in rows:
            xx = numpy.multiply.outer(x, x)
            three += numpy.multiply.outer(xx, x) / 6 + numpy.multiply.outer(one, xx) / 2 + numpy.multiply.outer(two, x)
            two += xx / 2 + numpy.multiply.outer(one, x)
            one += x
        due = numpy.concatenate([[1], one, two.ravel(), three.ravel()])
        self.assertTrue(numpy.allclose(value.array(), due, rtol=1e-12, atol=1e-9))


class Algebra(unittest.TestCase):
    def test_rows_by_their_texts(self):
        stream = rough.Stream(2, 3, scale=[2, 10])
        stream.append(0, {"[1,2]": "0.25", 1: 1}, "a")
        self.assertEqual(stream.rows["a"].entries, (1, 0, Fraction(1, 4)))
        log = stream.log_signature(0, 1)
        self.assertEqual((log[1], log["[1,2]"], log["[1,[1,2]]"]), (1, Fraction(1, 4), 0))
        stream.correct("a", {(2, (1, 2)): "0.1", "2": "0.2"})
        self.assertEqual(stream.log_signature(0, 1).dense(), [0, Fraction(1, 5), 0, 0, Fraction(1, 10)])
        self.assertEqual(stream.log_signature(0, 1, at=1), log)
        stream.append(1, log.dense())
        for entries in ([1], [1, 2, 3, 4], {"[2,1]": 1}, {"[1,2]": "0.01"}, {3: 1}):
            with self.assertRaises(ValueError):
                stream.append(0, entries)

    def test_product_is_chens_identity(self):
        stream = rough.Stream.from_increments(walk(30, 2), depth=4, scale=2)
        first, later, whole = stream.signatures([(0, 11), (11, 30), (0, 30)])
        self.assertEqual(first * later, whole)
        self.assertEqual((first * later).interval, whole.interval)
        self.assertNotEqual(later * first, whole)
        with self.assertRaises(ValueError):
            first * rough.Stream(2, 3).signature(0, 1)

    def test_expansion(self):
        self.assertEqual(rough.expansion((1, (1, 2))), {(1, 1, 2): 1, (1, 2, 1): -2, (2, 1, 1): 1})

    def test_wide_signature(self):
        rows = [[6000 * x for x in row] for row in walk(40, 1)]
        stream = rough.Stream.from_increments(rows, depth=8)
        with self.assertRaises(rough.Overflow):
            stream.signature(0, 40)
        self.assertEqual(stream.wide_signature(0, 40).dense(), list(chen(rows, 1, 8).values()))


if __name__ == "__main__":
    unittest.main()

"""Tests of the package: python3 -m unittest discover hosts/python/tests

Tables are read from lists, numpy arrays and files, the doctests are run, and what the library says of transformations is held to what follows by
composing lists here.
"""

import doctest
import pickle
import subprocess
import sys
import tempfile
import unittest
from collections import Counter
from itertools import permutations, product
from pathlib import Path

HERE = Path(__file__).resolve().parent
sys.path.insert(0, str(HERE.parent))

import tickdrizzle
from tickdrizzle import MORE, Names, Refusal, Table

try:
    import numpy
except ImportError:
    numpy = None

SWAP = [[1, 2], [2, 1]]
POINTS = (1, 2, 3)
LISTS = list(product(POINTS, repeat=3))


def then(first, second):
    """Two transformations, one after the other."""
    return tuple(second[place - 1] for place in first)


def closed(chosen):
    """The smallest set of transformations that holds these and every product of its own members."""
    part = set(chosen)
    while (larger := part | {then(a, b) for a in part for b in part}) != part:
        part = larger
    return frozenset(part)


class Reading(unittest.TestCase):
    def test_rows(self):
        self.assertEqual(Table(SWAP), Table.from_cells(bytes([1, 2, 2, 1]), 2))
        self.assertEqual(Table(((1, 2), (2, 1))).rows, ((1, 2), (2, 1)))
        self.assertEqual(eval(repr(Table(SWAP))), Table(SWAP))
        self.assertEqual(len({Table(SWAP), Table(SWAP), Table([[1]])}), 2)

    def test_what_is_no_number_of_a_byte(self):
        for cell in (0, 3, -1, 256, 2**70):
            with self.assertRaises(Refusal) as caught:
                Table([[1, 2], [2, cell]])
            self.assertEqual((caught.exception.number, caught.exception.place), (3, (4,)))
        for cell in (1.0, "1", None):
            with self.assertRaises(TypeError):
                Table([[1, 2], [2, cell]])

    def test_numbers_that_do_not_fit(self):
        for element in (0, 3, -1, 2**64 + 1, 2**80):
            with self.assertRaises(Refusal) as caught:
                Table(SWAP).index_period(element)
            self.assertEqual(caught.exception.number, 7)
        for order in (0, -1, 121, 2**64 + 2):
            with self.assertRaises(Refusal) as caught:
                Table.from_cells([1, 2, 2, 1], order)
            self.assertEqual(caught.exception.number, 1)
        for limit in (-1, 2**32):
            with self.assertRaises(ValueError):
                Table(SWAP).embedding_within(Table(SWAP), limit)

    @unittest.skipUnless(numpy, "numpy is not installed")
    def test_numpy(self):
        for kind in ("uint8", "int64", "int16"):
            self.assertEqual(Table(numpy.array(SWAP, dtype=kind)), Table(SWAP))
        with self.assertRaises(TypeError):
            Table(numpy.array(SWAP, dtype=float))
        array = numpy.array(Table.transformations(2))
        self.assertEqual((array.shape, array.dtype), ((4, 4), numpy.dtype("uint8")))
        self.assertEqual(array[2].tolist(), [1, 3, 2, 4])
        with self.assertRaises(ValueError):
            Table(SWAP).__array__(copy=False)

    def test_files(self):
        with tempfile.TemporaryDirectory() as folder:
            path = Path(folder) / "table.csv"
            Table(SWAP).save(path)
            self.assertEqual(path.read_bytes(), b"1,2\r\n2,1\r\n")
            self.assertEqual(Table.load(path), Table(SWAP))
            path.write_bytes(b"1,2\n2,1\n")
            with self.assertRaises(Refusal) as caught:
                Table.load(str(path))
            self.assertEqual((caught.exception.number, caught.exception.place), (21, (3,)))
            names = Names(["dim", 'say "hi"', "x" * 40])
            names.save(path)
            self.assertEqual(Names.load(path), names)

    def test_names(self):
        names = Names(["dim", "stop, go"])
        self.assertEqual((len(names), list(names), names.of(2), names[1], names[:1]), (2, ["dim", "stop, go"], "stop, go", "stop, go", ("dim",)))
        for wrong, number, place in ([[], 42, (0,)], [["a"] * 121, 42, (0,)], [["a", "b" * 41], 41, (2,)], [["a" * 300], 41, (1,)], [["é"], 41, (1,)]):
            with self.assertRaises(Refusal) as caught:
                Names(wrong)
            self.assertEqual((caught.exception.number, caught.exception.place), (number, place))
        for place in (0, 3):
            with self.assertRaises(IndexError):
                names.of(place)

    def test_refusals(self):
        refusal = Refusal(3, (4,), tickdrizzle.Side.TARGET)
        self.assertEqual(str(refusal), "the target: cell 4 is no element of the table (question 3)")
        self.assertEqual(str(pickle.loads(pickle.dumps(refusal))), str(refusal))
        self.assertEqual(str(Refusal(42, (0,))), "there are not 1 to 120 names (question 42)")
        with self.assertRaises(IndexError):
            Table(SWAP)[3, 1]


class ThreePoints(unittest.TestCase):
    table = Table.transformations(3)

    def test_products(self):
        rows = tuple(tuple(LISTS.index(then(a, b)) + 1 for b in LISTS) for a in LISTS)
        self.assertEqual(self.table.rows, rows)

    def test_parts_of_two(self):
        cut = {self.table.part([i, j]).elements for i in range(1, 28) for j in range(1, 28)}
        by_lists = {tuple(sorted(LISTS.index(member) + 1 for member in closed(pair))) for pair in product(LISTS, repeat=2)}
        self.assertEqual(cut, by_lists)
        counts = {1: 10, 2: 45, 3: 49, 4: 39, 5: 21, 6: 17, 7: 21, 8: 6, 9: 6, 11: 9, 13: 3, 24: 1}
        self.assertEqual(Counter(map(len, cut)), counts)

    def test_symmetries(self):
        by_lists = []
        for points in permutations(POINTS):
            back = tuple(points.index(place) + 1 for place in POINTS)
            by_lists.append(tuple(LISTS.index(then(then(back, member), points)) + 1 for member in LISTS))
        self.assertEqual(list(self.table.isomorphisms(self.table)), sorted(by_lists))
        self.assertEqual(list(self.table.reversed_isomorphisms(self.table)), [])

    def test_copies_of_two_points(self):
        two = Table.transformations(2)
        maps = [images for images in permutations(range(1, 28), 4) if self.is_embedding(two, images)]
        self.assertEqual(list(two.embeddings(self.table)), maps)
        self.assertEqual(two.copies(self.table), len({frozenset(images) for images in maps}))

    def is_embedding(self, source, images):
        elements = range(1, source.order + 1)
        return all(
            then(LISTS[images[i - 1] - 1], LISTS[images[j - 1] - 1]) == LISTS[images[source[i, j] - 1] - 1] for i in elements for j in elements
        )

    def test_many_copies(self):
        null = Table([[1] * 20 for _ in range(20)])
        self.assertIs(Table([[1] * 10 for _ in range(10)]).copies(null), MORE)

    def test_degrees(self):
        self.assertEqual((self.table.degree(), Table([[1]]).degree(), Table([[1] * 4] * 4).degree()), (3, 1, None))
        self.assertEqual(self.table.positions(), tuple(LISTS))


class Documents(unittest.TestCase):
    def test_doctests(self):
        result = doctest.testmod(tickdrizzle)
        self.assertEqual(result.failed, 0)
        self.assertGreater(result.attempted, 30)

    def test_example(self):
        script = HERE.parent / "examples" / "three_points.py"
        code = f"import sys, runpy; sys.path.insert(0, {str(HERE.parent)!r}); runpy.run_path({str(script)!r})"
        printed = subprocess.run([sys.executable, "-c", code], check=True, capture_output=True, text=True).stdout
        self.assertIn("symmetries of all: 6\n", printed)
        self.assertIn("embeddings of two points: 24 on 12 sets\n", printed)


if __name__ == "__main__":
    unittest.main()

"""Tests of the module plombrisa.py, against what the Rust wrapper answered on the same pictures. Started by python.rs.

python_module.py FOLDER   reads expected.json in the folder, and of each case in it the files NAME.map, NAME.points and NAME.heights
"""
import json
import pathlib
import sys
import unittest

import numpy

import plombrisa

FOLDER = pathlib.Path(sys.argv.pop())
EXPECTED = json.loads((FOLDER / "expected.json").read_text())
CASES = EXPECTED["cases"]
SIZE = (EXPECTED["height"], EXPECTED["width"])


def raw(name, kind):
    return numpy.fromfile(FOLDER / name, kind)


LEFT, RIGHT = (raw(name, numpy.uint8).reshape(SIZE) for name in ("left", "right"))


def expected_map(case):
    return raw(case["name"] + ".map", numpy.float32).reshape(SIZE)


class OnTheExamplePair(unittest.TestCase):
    def test_there_are_cases(self):
        self.assertGreater(len(CASES), len(EXPECTED["defaults"]), "an option has no case of its own")

    def test_maps(self):
        for case in CASES:
            with self.subTest(case["options"]):
                found = plombrisa.match(LEFT, RIGHT, **case["options"])
                self.assertEqual((found.dtype, found.shape), (numpy.float32, SIZE))
                self.assertEqual(found.tobytes(), expected_map(case).tobytes())

    def test_covers(self):
        for case in CASES:
            with self.subTest(case["options"]):
                self.assertEqual(plombrisa.cover(expected_map(case), case["options"]["block_size"]), case["cover"])

    def test_points(self):
        for case in CASES:
            with self.subTest(case["options"]):
                found = plombrisa.points(expected_map(case), **EXPECTED["camera"])
                self.assertEqual(found.dtype.names, ("x", "y", "z", "column", "row", "disparity"))
                self.assertEqual(found.tobytes(), raw(case["name"] + ".points", numpy.uint8).tobytes())

    def test_volumes(self):
        for case in CASES:
            with self.subTest(case["options"]):
                heap = plombrisa.heap_volume(raw(case["name"] + ".points", plombrisa.POINT), **EXPECTED["site"])
                self.assertEqual({name: getattr(heap, name) for name in case["figures"]}, case["figures"])
                self.assertEqual(heap.heights.shape, tuple(EXPECTED["grid"]))
                self.assertEqual(heap.heights.tobytes(), raw(case["name"] + ".heights", numpy.uint8).tobytes())

    def test_rows_that_do_not_lie_one_behind_the_other(self):
        """A part of a larger picture, every second row of one, and one whose columns lie one behind the other."""
        options = {"num_disparities": 8, "block_size": 3}
        for left, right in ((LEFT[20:60, 30:90], RIGHT[20:60, 30:90]), (LEFT[::2], RIGHT[::2]), (LEFT.copy("F"), RIGHT.copy("F"))):
            self.assertFalse(left.flags.c_contiguous)
            found = plombrisa.match(left, right, **options)
            self.assertEqual(found.tobytes(), plombrisa.match(left.copy("C"), right.copy("C"), **options).tobytes())

    def test_pictures_are_left_as_they_were(self):
        left, right = LEFT.copy(), RIGHT.copy()
        left.flags.writeable = right.flags.writeable = False
        plombrisa.match(left, right, num_disparities=8)
        self.assertTrue((left == LEFT).all() and (right == RIGHT).all())


class OnThreeRows(unittest.TestCase):
    left, right = (numpy.array([row] * 3, numpy.uint8) for row in ([9, 1, 4, 7, 2], [1, 4, 7, 2, 5]))

    def match(self, **options):
        return plombrisa.match(self.left, self.right, **{"num_disparities": 2, "block_size": 3, **options})

    def refused(self, function, *words, **options):
        with self.assertRaises(plombrisa.Refused) as raised:
            function(*words, **options)
        return raised.exception

    def test_the_worked_example(self):
        nan = numpy.nan
        expected = [[nan] * 5, [nan, nan, 1, 1, nan], [nan] * 5]
        numpy.testing.assert_array_equal(self.match(), numpy.array(expected, numpy.float32))
        self.assertEqual(plombrisa.cover(self.match(), 3), 666)

    def test_two_points_and_their_heap(self):
        found = plombrisa.points(self.match(), 2, 2, 2, 1, 0.5)
        self.assertEqual(found.tolist(), [(0.0, 0.0, 1.0, 2, 1, 1.0), (0.5, 0.0, 1.0, 3, 1, 1.0)])
        heap = plombrisa.heap_volume(found, 0, 400, 0, 200, 200, 1250)
        self.assertEqual((heap.volume, heap.inside, heap.outside, heap.empty), (200 * 200 * 250, 1, 1, 1))
        self.assertEqual(heap.heights.tolist(), [[250, 0]])

    def test_refusals(self):
        refused = self.refused(self.match, block_size=4)
        self.assertEqual((refused.number, refused.reason), (4, EXPECTED["reasons"]["4"]))
        self.assertEqual(str(refused), "refused, 4: " + EXPECTED["reasons"]["4"])
        for number, options in [(5, {"block_size": 99}), (6, {"num_disparities": 0}), (8, {"block_size": 5}), (9, {"min_disparity": 9999}),
                                (13, {"semi_global": True, "sgm_p1": 2})]:
            self.assertEqual(self.refused(self.match, **options).number, number)
        self.assertEqual(self.refused(plombrisa.match, self.left, self.right[:2], block_size=1).number, 3)
        self.assertEqual(self.refused(plombrisa.cover, self.match(), 7).number, 8)
        self.assertEqual(self.refused(plombrisa.points, self.match(), 0, 2, 2, 1, 0.5).number, 21)
        self.assertEqual(self.refused(plombrisa.points, self.match(), 2, 2, 2, 1, 0).number, 22)
        far = numpy.array([(0, 0, 101, 0, 0, 1)], plombrisa.POINT)
        self.assertEqual(self.refused(plombrisa.heap_volume, far, 0, 400, 0, 200, 200, 0).number, 52)
        self.assertEqual(self.refused(plombrisa.heap_volume, far[:0], 0, 401, 0, 200, 200, 0).number, 53)

    def test_a_refused_size_asks_for_no_room(self):
        """The rooms for this picture would have 200 thousand million cells."""
        wide = numpy.zeros((2, 10 ** 6), numpy.uint8)
        self.assertEqual(self.refused(plombrisa.match, wide, wide, num_disparities=10 ** 5).number, 1)

    def test_each_number_has_its_sentence(self):
        self.assertGreater(len(EXPECTED["reasons"]), 30)
        for number, reason in EXPECTED["reasons"].items():
            self.assertEqual(plombrisa.Refused(int(number)).reason, reason)

    def test_what_is_no_picture_and_no_option(self):
        for left in (self.left.astype(numpy.float32), self.left[0], self.left.astype(">u2"), [[1, 2], [3, 4]]):
            self.assertRaises(TypeError, plombrisa.match, left, self.right)
        self.assertRaises(TypeError, plombrisa.cover, self.match().astype(numpy.float64), 3)
        for options in ({"blocksize": 3}, {"block_size": 3.0}, {"subpixel": "no"}, {"semi_global": None}):
            self.assertRaises(TypeError, self.match, **options)
        for options in ({"num_disparities": 2 ** 32 + 2}, {"block_size": -1}, {"block_size": 2 ** 64 + 3}, {"min_disparity": 2 ** 31}):
            self.assertRaises(OverflowError, self.match, **options)

    def test_numbers_of_numpy(self):
        found = self.match(num_disparities=numpy.int64(2), block_size=numpy.uint8(3), min_correlation=numpy.float32(0.5),
                           semi_global=numpy.bool_(False))
        self.assertEqual(found.tobytes(), self.match().tobytes())


class OfTheModule(unittest.TestCase):
    def test_defaults(self):
        self.assertEqual(plombrisa.match.__kwdefaults__, EXPECTED["defaults"])

    def test_version(self):
        self.assertEqual(plombrisa.version(), EXPECTED["version"])

    def test_everything_is_described(self):
        shown = [name for name, value in vars(plombrisa).items() if getattr(value, "__module__", None) == "plombrisa" and name[0] != "_"]
        self.assertEqual(sorted(shown), ["Heap", "Refused", "cover", "heap_volume", "match", "points", "version"])
        for name in shown:
            self.assertTrue(getattr(plombrisa, name).__doc__, name)


unittest.main()

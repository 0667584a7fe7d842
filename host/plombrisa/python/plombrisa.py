"""Plombrisa from Python: disparity maps of two pictures, their points, and the volume of a heap.

    import numpy, plombrisa

    left = numpy.array([[9, 1, 4, 7, 2]] * 3, dtype=numpy.uint8)
    right = numpy.array([[1, 4, 7, 2, 5]] * 3, dtype=numpy.uint8)
    map = plombrisa.match(left, right, num_disparities=2, block_size=3)
    print(map[1, 2])                                   # 1.0

Pictures and maps are numpy arrays, a row of the picture in each row, the top row first. The proved shared library does the work; this
file lends it the memory that it needs. What the library refuses raises Refused, which has the number and the sentence.

The library is looked for where the environment variable PLOMBRISA_LIBRARY says (a file), else in the folder above this file's, which is
where host/install.sh puts it, else where the loader looks.
"""
import ctypes
import operator
import os
import pathlib
from ctypes import byref, c_bool, c_double, c_float, c_int32, c_int64, c_size_t, c_uint32, c_uint64
from dataclasses import dataclass

import numpy
from numpy.ctypeslib import ndpointer

# The one refusal that is looked for by its number: every other reason is judged before this one.
_ROOM_TOO_SHORT = 12

# A point of a map: where it is in metres, in the left camera's frame (x to the right, y downwards, z away from the camera), the column and
# the row of the pixel that shows it, and the disparity there.
POINT = numpy.dtype([("x", "f8"), ("y", "f8"), ("z", "f8"), ("column", numpy.uintp), ("row", numpy.uintp), ("disparity", "f8")])


class Refused(Exception):
    """A call that the library refused: `number` is the refusal's, `reason` its sentence."""

    def __init__(self, number):
        self.number = number
        self.reason = _library.plombrisa_reason(number).decode()
        super().__init__(f"refused, {number}: {self.reason}")


@dataclass(frozen=True)
class Heap:
    """A heap that was measured.

    `volume` is in cubic millimetres; `inside` and `outside` count the points in the rectangle and beside it, `empty` the cells that no
    point fell into; `heights` has the height of each cell in millimetres, the row at the top edge first.
    """

    volume: int
    inside: int
    outside: int
    empty: int
    heights: numpy.ndarray


def version():
    """The version of the library, such as "0.1.0"."""
    return _library.plombrisa_version().decode()


def match(left, right, *, min_disparity=0, num_disparities=64, block_size=7, min_correlation=0.5, uniqueness_ratio=0.03,
          lr_consistency=True, lr_max_diff=1.0, subpixel=True, semi_global=False, sgm_p1=0.1, sgm_p2=1.5):
    """The disparity map of two pictures: a float32 array of their size, NaN where there is no answer.

    left, right       2-D arrays of uint8, of one size, rectified: what row y of one shows is in row y of the other
    min_disparity     the first disparity that is tried
    num_disparities   how many are tried
    block_size        the side of the block that is compared, odd
    min_correlation   the least correlation of a match
    uniqueness_ratio  by how much the next match must be worse
    lr_consistency    whether the left-right test is made
    lr_max_diff       the most that the left-right test lets the two sides differ
    subpixel          whether disparities have fractions
    semi_global       a figure at nearly every pixel, where a block map has holes
    sgm_p1, sgm_p2    the penalties of semi-global maps, sgm_p2 not below sgm_p1
    """
    left, right = _array("left", left, numpy.uint8), _array("right", right, numpy.uint8)
    count, semi_global = _whole("num_disparities", num_disparities, c_int32), _truth("semi_global", semi_global)
    options = (
        _whole("min_disparity", min_disparity, c_int32), count, _whole("block_size", block_size, c_size_t), min_correlation,
        uniqueness_ratio, _truth("lr_consistency", lr_consistency), lr_max_diff, _truth("subpixel", subpixel), semi_global, sgm_p1, sgm_p2)
    out = numpy.empty(left.shape, numpy.float32)

    def answered(whole_cells, float_cells):
        whole_room, float_room = numpy.empty(whole_cells, numpy.uint64), numpy.empty(float_cells, numpy.float32)
        return _library.plombrisa_match_block(
            *_sized(left), *_sized(right), *options, out, out.size, whole_room, whole_cells, float_room, float_cells)

    # without rooms first: what is refused for another reason asks for no memory
    number = answered(0, 0)
    if number == _ROOM_TOO_SHORT:
        height, width = left.shape
        number = answered(
            _library.plombrisa_whole_cells(width, height), _library.plombrisa_float_cells(width, height, count, semi_global))
    _accept(number)
    return out


def points(map, fx, fy, cx, cy, baseline):
    """The points of a map, rows first: an array of POINT, one for each cell with a positive disparity.

    fx, fy, cx and cy are the left camera's focal lengths and principal point in pixels; baseline is the distance between the two cameras
    in metres.
    """
    map = _array("map", map, numpy.float32)
    found, count = numpy.empty(map.size, POINT), c_uint64()
    _accept(_library.plombrisa_points(*_sized(map), fx, fy, cx, cy, baseline, found, found.size, byref(count)))
    return found[:count.value].copy()


def heap_volume(points, left, right, top, bottom, cell, floor):
    """The Heap over a rectangle of ground, of an array of points that has the fields x, y and z in metres.

    The rectangle's edges (left and top are the low ones), the side of its square cells and the depth of the floor are in whole
    millimetres. Each cell has the height of its highest point.
    """
    edges = [_whole(name, edge, c_int64) for name, edge in zip(("left", "right", "top", "bottom"), (left, right, top, bottom))]
    site = (*edges, _whole("cell", cell, c_size_t), _whole("floor", floor, c_int64))
    columns, rows = c_uint64(), c_uint64()
    # a site that is refused has no grid here, and the next call says why: a point's fault may come before the site's
    _library.plombrisa_heap_shape(*site, byref(columns), byref(rows))
    heights = numpy.empty((rows.value, columns.value), numpy.uint64)
    xs, ys, zs = (numpy.ascontiguousarray(points[axis], numpy.float64) for axis in ("x", "y", "z"))
    volume, inside, outside, empty = (c_uint64() for _ in range(4))
    _accept(_library.plombrisa_heap_volume(
        xs, xs.size, ys, ys.size, zs, zs.size, *site, heights, heights.size, byref(volume), byref(inside), byref(outside), byref(empty)))
    return Heap(volume.value, inside.value, outside.value, empty.value, heights)


def cover(map, block_size):
    """How many of a thousand cells of a map that can hold a match by this block do hold one, rounded down."""
    map, permille = _array("map", map, numpy.float32), c_uint64()
    _accept(_library.plombrisa_cover(*_sized(map), _whole("block_size", block_size, c_size_t), byref(permille)))
    return permille.value


def _accept(number):
    if number != 0:
        raise Refused(number)


def _array(name, array, kind):
    """The array as the library reads it: its rows one behind the other. Another kind of number is not converted, for that rounds."""
    array = numpy.asarray(array)
    if array.ndim != 2 or array.dtype != kind:
        raise TypeError(f"{name} is an array of {array.ndim} dimensions of {array.dtype}; it has to have 2, of {numpy.dtype(kind)}")
    return numpy.ascontiguousarray(array)


def _sized(array):
    """An array as the library takes it: its cells, how many they are, width and height."""
    height, width = array.shape
    return array, array.size, width, height


def _whole(name, value, kind):
    """A whole number that fits the library's kind of it; ctypes would cut it to size."""
    value = operator.index(value)
    if kind(value).value != value:
        raise OverflowError(f"{name} is {value}, which the library cannot be told")
    return value


def _truth(name, value):
    if value not in (True, False):
        raise TypeError(f"{name} is {value!r}; it has to be True or False")
    return bool(value)


def _opened():
    """The shared library, from the first place that has it."""
    name = "libplombrisa.so.0"
    above = pathlib.Path(__file__).resolve().parent.parent / name
    place = os.environ.get("PLOMBRISA_LIBRARY") or (str(above) if above.exists() else name)
    try:
        return ctypes.CDLL(place)
    except OSError as error:
        remedy = "PLOMBRISA_LIBRARY may name the file of Plombrisa's shared library"
        raise ImportError(f"{place} cannot be loaded; {remedy}: {error}") from error


def _declared(library):
    """The library, each function with the types that plombrisa.h gives it."""
    def read(kind, dimensions):
        return ndpointer(kind, dimensions, flags="C_CONTIGUOUS")

    def written(kind):
        return ndpointer(kind, flags="C_CONTIGUOUS,WRITEABLE")

    number = ctypes.POINTER(c_uint64)
    picture = [read(numpy.uint8, 2), c_size_t, c_size_t, c_size_t]
    map = [read(numpy.float32, 2), c_size_t, c_size_t, c_size_t]
    options = [c_int32, c_int32, c_size_t, c_float, c_float, c_bool, c_float, c_bool, c_bool, c_float, c_float]
    rooms = [written(numpy.float32), c_size_t, written(numpy.uint64), c_size_t, written(numpy.float32), c_size_t]
    site = [c_int64, c_int64, c_int64, c_int64, c_size_t, c_int64]
    coordinates = [read(numpy.float64, 1), c_size_t]
    for name, result, taken in [
        ("version", ctypes.c_char_p, []),
        ("reason", ctypes.c_char_p, [c_uint32]),
        ("whole_cells", c_size_t, [c_size_t, c_size_t]),
        ("float_cells", c_size_t, [c_size_t, c_size_t, c_int32, c_bool]),
        ("match_block", c_uint32, [*picture, *picture, *options, *rooms]),
        ("cover", c_uint32, [*map, c_size_t, number]),
        ("points", c_uint32, [*map, *[c_double] * 5, written(POINT), c_size_t, number]),
        ("heap_shape", c_uint32, [*site, number, number]),
        ("heap_volume", c_uint32, [*coordinates * 3, *site, written(numpy.uint64), c_size_t, *[number] * 4]),
    ]:
        function = getattr(library, "plombrisa_" + name)
        function.restype, function.argtypes = result, taken
    return library


_library = _declared(_opened())

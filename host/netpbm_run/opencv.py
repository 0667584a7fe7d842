"""Maps as OpenCV reads and writes them, for peers.sh and samples/samples.sh. A map is a text of its width and height and the bits
of its cells, the top row first.

opencv.py make SEED WIDTH HEIGHT   prints a map of any bits: plain numbers, subnormal ones, both zeros, infinities and NaNs
opencv.py finite SEED WIDTH HEIGHT prints one whose cells are all finite
opencv.py write MAP FILE           has OpenCV write a map as PFM
opencv.py read FILE                has OpenCV read a PFM file and prints its map
opencv.py as-written MAP           prints a map with plus infinity for each NaN, as the library writes it
opencv.py as-read MAP              prints a map with the mark 7FC00000 for each cell that is not finite, as the library reads it
"""
import sys

import cv2
import numpy


def text_of(cells):
    rows = [" ".join(f"{bits:08X}" for bits in row) for row in cells.view(numpy.uint32)]
    return "\n".join([f"{cells.shape[1]} {cells.shape[0]}"] + rows)


def map_of(file):
    words = open(file).read().split()
    width, height = int(words[0]), int(words[1])
    return numpy.array([int(bits, 16) for bits in words[2:]], numpy.uint32).reshape(height, width).view(numpy.float32)


def made(seed, width, height):
    numbers = numpy.random.RandomState(seed)
    bits = numbers.randint(0, 1 << 32, (height, width), numpy.uint64).astype(numpy.uint32)
    kind = numbers.randint(0, 4, (height, width))
    bits = numpy.where(kind == 0, bits & numpy.uint32(0x807FFFFF), bits)
    ends = [0, 0x80000000, 1, 0x007FFFFF, 0x00800000, 0x7F7FFFFF, 0xFF7FFFFF, 0x7F800000, 0xFF800000, 0x7FC00000]
    ends = numpy.array(ends, numpy.uint32)
    bits = numpy.where(kind == 1, ends[numbers.randint(0, len(ends), (height, width))], bits)
    return bits.astype(numpy.uint32).view(numpy.float32)


def main(words):
    if words[0] == "make":
        print(text_of(made(*map(int, words[1:]))))
    elif words[0] == "finite":
        cells = made(*map(int, words[1:]))
        print(text_of(numpy.where(numpy.isfinite(cells), cells, numpy.float32(1.5))))
    elif words[0] == "write":
        assert cv2.imwrite(words[2], map_of(words[1]))
    elif words[0] == "read":
        cells = cv2.imread(words[1], cv2.IMREAD_UNCHANGED)
        assert cells.dtype == numpy.float32 and cells.ndim == 2
        print(text_of(cells))
    elif words[0] == "as-written":
        cells = map_of(words[1])
        print(text_of(numpy.where(numpy.isnan(cells), numpy.float32(numpy.inf), cells)))
    elif words[0] == "as-read":
        cells = map_of(words[1])
        print(text_of(numpy.where(numpy.isfinite(cells), cells, numpy.uint32(0x7FC00000).view(numpy.float32))))
    else:
        sys.exit(__doc__)


main(sys.argv[1:])

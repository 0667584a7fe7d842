"""The map of a pair by one of OpenCV's matchers, as a vendor's box would hand it over, for opencv.sh.

opencv.py bm|sgbm LEFT RIGHT FIRST COUNT BLOCK MAP   writes a PFM file: whole disparities, halves rounded up, and a NaN where the
                                                     matcher has no answer
"""
import sys

import cv2
import numpy


def matcher(name, first, count, block):
    if name == "bm":
        made = cv2.StereoBM_create(numDisparities=count, blockSize=block)
        made.setMinDisparity(first)
        return made
    # the penalties, the margin and the left-right test that OpenCV's documentation advises; its defaults are none of them
    return cv2.StereoSGBM_create(
        minDisparity=first, numDisparities=count, blockSize=block, P1=8 * block * block, P2=32 * block * block, disp12MaxDiff=1,
        uniquenessRatio=10)


def main(words):
    if len(words) != 7 or words[0] not in ("bm", "sgbm"):
        sys.exit(__doc__)
    first, count, block = map(int, words[3:6])
    left, right = (cv2.imread(file, cv2.IMREAD_GRAYSCALE) for file in words[1:3])
    # sixteenths of a pixel; a pixel without an answer has one less than the first disparity
    sixteenths = matcher(words[0], first, count, block).compute(left, right)
    whole = numpy.floor(sixteenths / 16 + 0.5).astype(numpy.float32)
    assert cv2.imwrite(words[6], numpy.where(sixteenths == 16 * (first - 1), numpy.float32(numpy.nan), whole))


main(sys.argv[1:])

"""The table of aloe.sh, started in the folder that has aloeL.jpg, aloeR.jpg and aloeGT.png:

aloe.py PROGRAM

The pair is 1282 by 1110. It is halved to 641 by 555: each level is the mean of two by two levels, as OpenCV's INTER_AREA has it. The
truth has the left picture's disparities in whole pixels and 0 where they are not known; half of them are left, those in even columns of
even rows, and each is divided by two, for a pixel is now twice as wide. They are not averaged: between a leaf and the wall behind it
the mean is the disparity of neither.

Of the cells whose truth is known, the table says how many of 1000 have a figure; and of those that have one, how many of 100 are more
than one pixel off, and by how many pixels they are off in the mean. The seconds are the least of three runs: the whole command for the
program, which starts, reads two files, matches on one core and writes one; the call of `compute` alone for OpenCV.
"""
import os
import platform
import subprocess
import sys
import time

import cv2
import numpy

SIZE = (1282, 1110)
HALF = (SIZE[0] // 2, SIZE[1] // 2)
# the greatest truth at half size is 105.5, and OpenCV wants a multiple of 16
DISPARITIES = 112
# OpenCV writes disparities in sixteenths of a pixel, and a negative number where it has none
SIXTEENTHS = 16
RUNS = 3


def give_up(why):
    sys.exit(f"aloe.py: {why}")


def read(file, flags):
    levels = cv2.imread(file, flags)
    if levels is None or levels.shape != SIZE[::-1]:
        give_up(f"{file} is not a grey picture of {SIZE[0]} by {SIZE[1]}")
    return levels


def half_picture(file):
    return cv2.resize(read(file, cv2.IMREAD_GRAYSCALE), HALF, interpolation=cv2.INTER_AREA)


def half_truth(file):
    """The truth in pixels of half size, NaN where it is not known."""
    whole = read(file, cv2.IMREAD_UNCHANGED)[::2, ::2].astype(numpy.float64)
    return numpy.where(whole == 0, numpy.nan, whole / 2)


def timed(run):
    """What `run` gives, and the least seconds that it took."""
    least = float("inf")
    for _ in range(RUNS):
        start = time.perf_counter()
        answer = run()
        least = min(least, time.perf_counter() - start)
    return answer, least


def of_program(program, options):
    """The program's map of left.pgm and right.pgm, and its seconds."""
    command = [program, "match", "left.pgm", "right.pgm", "map.pfm", "--quiet", "--num-disparities", str(DISPARITIES), *options]

    def run():
        done = subprocess.run(command, stdout=subprocess.DEVNULL)
        if done.returncode != 0:
            give_up(f"the status of {' '.join(command)} is {done.returncode}")

    _, seconds = timed(run)
    return cv2.imread("map.pfm", cv2.IMREAD_UNCHANGED), seconds


def of_opencv(matcher, left, right):
    """OpenCV's map in pixels, NaN where it has none, and its seconds."""
    sixteenths, seconds = timed(lambda: matcher.compute(left, right))
    return numpy.where(sixteenths < 0, numpy.nan, sixteenths / SIXTEENTHS), seconds


def sgbm():
    """All eight directions and the settings of OpenCV's sample stereo_match.cpp, its left-right test among them, with a block of 5 and
    the speckle range 2: the sample has 32, of which OpenCV's manual says that 1 or 2 is good enough."""
    block = 5
    return cv2.StereoSGBM_create(
        minDisparity=0, numDisparities=DISPARITIES, blockSize=block, P1=8 * block**2, P2=32 * block**2, disp12MaxDiff=1,
        preFilterCap=63, uniquenessRatio=10, speckleWindowSize=100, speckleRange=2, mode=cv2.STEREO_SGBM_MODE_HH)


def row(name, cells, truth, seconds):
    known = ~numpy.isnan(truth)
    answered = known & numpy.isfinite(cells)
    error = numpy.abs(cells[answered] - truth[answered])
    cover = 1000 * answered.sum() / known.sum()
    return f"{name:<46} {cover:>8.0f} {100 * (error > 1).mean():>9.1f} {error.mean():>10.2f} {seconds:>8.2f}"


def machine():
    kind = {"x86_64": "x86-64", "aarch64": "Arm (aarch64)"}.get(platform.machine(), platform.machine())
    cores = len(os.sched_getaffinity(0))
    return f"{kind}, {'one core' if cores == 1 else f'{cores} cores'}"


def print_head(truth):
    known = numpy.count_nonzero(~numpy.isnan(truth))
    print(f"Aloe at half size, {HALF[0]} by {HALF[1]}; {DISPARITIES} disparities from 0; truth known for {known} of {truth.size} cells")
    print(f"{machine()}; OpenCV {cv2.__version__} on at most {cv2.getNumThreads()} threads, the program on one")
    print(f"seconds: the least of {RUNS} runs; the program's whole command, with its files read and written, OpenCV's compute call alone")
    if platform.machine() != "x86_64":
        print("the program runs under an emulator here, so that its seconds say nothing")
    print()
    print(f"{'':<46} {'answered':>8} {'bad at 1':>9} {'mean error':>10}")
    print(f"{'':<46} {'of 1000':>8} {'pixel, %':>9} {'in pixels':>10} {'seconds':>8}")


def main(program):
    left, right, truth = half_picture("aloeL.jpg"), half_picture("aloeR.jpg"), half_truth("aloeGT.png")
    cv2.imwrite("left.pgm", left)
    cv2.imwrite("right.pgm", right)
    maps = [
        ("block map", of_program(program, [])),
        ("semi-global map, left-right test", of_program(program, ["--semi-global"])),
        ("semi-global map, no left-right test", of_program(program, ["--semi-global", "--no-lr"])),
        ("OpenCV StereoBM, block 7", of_opencv(cv2.StereoBM_create(DISPARITIES, 7), left, right)),
        ("OpenCV StereoSGBM, block 5, eight directions", of_opencv(sgbm(), left, right)),
    ]
    print_head(truth)
    for name, (cells, seconds) in maps:
        print(row(name, cells, truth, seconds))


main(*sys.argv[1:])

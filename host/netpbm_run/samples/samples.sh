#!/usr/bin/env bash
# Makes the files beside it: PGM and PFM files of other programs, each NAME.pgm or NAME.pfm with what those programs say it holds in
# NAME.txt. The library has no part in it. They were made with Debian 12's netpbm 2:11.01.00-2 and python3-opencv 4.6.0+dfsg-12;
# other versions may make other noise, and are as good. tests/samples.rs reads them.
#
# NAME.txt of a PGM file is the same picture in plain PGM, by pnmtoplainpnm. That of a PFM file of pamtopfm is the plain PGM that
# pamtopfm was given: a cell is the level divided by the maximum, times the scale's size, which is exact here. That of a PFM file of
# OpenCV is the width and height and the bits of the cells that OpenCV was given, the top row first.
set -eu
cd "$(dirname "$0")"
opencv=$PWD/../opencv.py
rm -f ./*.pgm ./*.pfm ./*.txt

pgmmake 0.5 1 1 > one.pgm
pgmmake 0.3 3 2 > grey.pgm
pgmramp -lr 16 9 > ramp.pgm
pgmramp -ellipse 33 21 > ellipse.pgm
pgmnoise -randomseed=7 29 17 > noise.pgm
pgmnoise -randomseed=8 2048 1 > wide.pgm
pgmnoise -randomseed=9 1 2048 > tall.pgm
raster() { tail -c "$1" noise.pgm; }
{ printf 'P5\n# left camera\n# 12:00\n7 #width\n5 # height 9\n# the maximum\n255\n'; raster 35; } > comments.pgm
{ printf 'P5#touches\r7#touches\r\n5#touches\n255\r'; raster 35; } > touching.pgm
{ printf 'P5\t\t7\r\n5\r\r255\t'; raster 35; } > tabs.pgm
{ printf 'P5 007 00000000000000000000000005 0255\n'; raster 35; } > zeros.pgm
for file in *.pgm; do pnmtoplainpnm -quiet "$file" > "${file%.pgm}.txt"; done

pgmramp -lr -maxval=32768 33 5 | pnmtoplainpnm -quiet > netpbm-big.txt
pgmnoise -randomseed=3 -maxval=1024 23 11 | pnmtoplainpnm -quiet > netpbm-little.txt
pgmnoise -randomseed=4 -maxval=256 1 9 | pnmtoplainpnm -quiet > netpbm-scaled.txt
pamtopfm -quiet -endian=big netpbm-big.txt > netpbm-big.pfm
pamtopfm -quiet -endian=little netpbm-little.txt > netpbm-little.pfm
pamtopfm -quiet -endian=big -scale=256 netpbm-scaled.txt > netpbm-scaled.pfm

/usr/bin/python3 "$opencv" make 11 19 13 > opencv-any.txt
/usr/bin/python3 "$opencv" finite 12 17 14 > opencv-finite.txt
/usr/bin/python3 "$opencv" make 13 1 5 > opencv-column.txt
for name in opencv-any opencv-finite opencv-column; do /usr/bin/python3 "$opencv" write $name.txt $name.pfm; done

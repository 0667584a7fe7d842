#!/usr/bin/env bash
# OpenCV's matchers as a vendor's box: the maps of StereoBM and StereoSGBM of some pairs, rounded to whole pixels, are checked by the
# library and by the plain Rust, which must agree; the library's own block maps beside them must pass. Prints a table of what is wrong
# with how many cells. To be run after `host/prove.sh plombrisa`. It installs Debian's python3-opencv, as root, where it is missing.
# The status is not 0 after a difference.
set -u
cd "$(dirname "$0")" || exit 1
opencv=$PWD/opencv.py
have_opencv() { /usr/bin/python3 -c 'import cv2' 2> /dev/null; }
have_opencv || apt-get install --yes --no-install-recommends python3-opencv > /dev/null 2>&1
have_opencv || { echo "python3-opencv is not there and could not be installed"; exit 1; }

. ../x86_64.sh || exit 1
(cd .. && cargo build --release --offline --quiet -p vendor_run) || exit 1
built=$(cd .. && pwd)/target/${CARGO_BUILD_TARGET:+$CARGO_BUILD_TARGET/}release/opencv_table
table() { ${CARGO_TARGET_X86_64_UNKNOWN_LINUX_GNU_RUNNER:-} "$built" "$@"; }
work=$(mktemp -d)
trap 'rm -rf "$work"' EXIT

table pairs "$work" > "$work/pairs.txt" || exit 1
while read -r name first count block; do
    for matcher in bm sgbm; do
        pair=("$work/$name-left.pgm" "$work/$name-right.pgm")
        /usr/bin/python3 "$opencv" $matcher "${pair[@]}" "$first" "$count" "$block" "$work/$name-$matcher.pfm" || exit 1
    done
done < "$work/pairs.txt"
/usr/bin/python3 -c 'import cv2; print("OpenCV", cv2.__version__)'
table table "$work"

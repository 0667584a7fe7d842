#!/usr/bin/env bash
# A real pair with its measured truth, Middlebury's Aloe: how much of it the proved program answers and how well, beside OpenCV's two
# matchers, as one table. Anyone may run it; only what has to be installed wants root. The status is 1, with a sentence, where something
# cannot be had.
#
# The pictures and the truth are files of Debian's package opencv-doc. The package is taken apart in a temporary folder, not installed:
# some machines leave documentation out of what they install. Nothing of Middlebury's is kept, and nothing of it is in the repository.
# OpenCV is Debian's python3-opencv, which is installed, as root, where it is missing. How the pair is halved, what becomes of the truth
# and what each column says stands in aloe.py, which does the rest.
set -u
# the program, started with `match LEFT.pgm RIGHT.pgm MAP.pfm OPTION..`; the script in the repository's root builds it where it is missing
program=$(realpath "${PLOMBRISA:-$(dirname "$0")/../plombrisa}")
here=$(cd "$(dirname "$0")" && pwd) || exit 1

fail() {
    echo "aloe.sh: $1" >&2
    exit 1
}

work=$(mktemp -d) || fail "no temporary folder can be made"
trap 'rm -rf "$work"' EXIT
said=$work/said

# from_debian WORD ..: apt-get with these words, and once more with fresh lists where the first attempt fails; what it says is kept.
from_debian() {
    apt-get -o DPkg::Lock::Timeout=300 --quiet "$@" > "$said" 2>&1 ||
        { apt-get -o DPkg::Lock::Timeout=300 --quiet update && apt-get -o DPkg::Lock::Timeout=300 --quiet "$@"; } > "$said" 2>&1
}

have_opencv() { /usr/bin/python3 -c 'import cv2, numpy' 2> /dev/null; }

get_opencv() {
    have_opencv && return
    [ "$(id -u)" -eq 0 ] || fail "OpenCV is missing, and only root can install it: apt-get install python3-opencv"
    from_debian install --yes --no-install-recommends python3-opencv
    have_opencv || fail "Debian's package python3-opencv cannot be had: $(tail -n 1 "$said")"
}

# Leaves aloeL.jpg, aloeR.jpg and aloeGT.png in $work.
get_aloe() {
    mkdir "$work/package" || fail "no temporary folder can be made"
    cd "$work/package" || exit 1
    from_debian download opencv-doc || fail "Debian's package opencv-doc cannot be had: $(tail -n 1 "$said")"
    dpkg --fsys-tarfile opencv-doc_*.deb > all.tar || fail "Debian's package opencv-doc cannot be taken apart"
    local file
    for file in aloeL.jpg aloeR.jpg aloeGT.png; do
        tar --extract --file all.tar --wildcards --to-stdout "*/$file" > "$work/$file" 2> "$said"
        [ -s "$work/$file" ] || fail "Debian's package opencv-doc has no file $file"
    done
    cd "$work" && rm -rf package
}

[ -x "$program" ] || fail "the program $program is not there"
get_opencv
get_aloe
cd "$work" && /usr/bin/python3 "$here/aloe.py" "$program"

#!/usr/bin/env bash
# The library beside the programs that its files come from and go to: Debian's netpbm, and OpenCV where python3-opencv can be had.
# To be run after `host/prove.sh plombrisa`. It installs both, as root, where they are missing. The status is not 0 after a
# difference.
#
# - PGM files of pgmmake, pgmramp and pgmnoise, and files with every kind of gap in the header, are read with the levels that
#   pnmtoplainpnm prints; so are they once pnmtopnm has written them anew.
# - PFM files of the library are read by pfmtopam, which answers whole samples: a cell k/M must come back as the sample k under
#   -maxval=M, for all k from 0 to M = 65535. OpenCV must read each cell with its bits, and plus infinity where it was a NaN.
# - PFM files of pamtopfm, in both byte orders, and of OpenCV are read with the numbers that were written: bit for bit from OpenCV
#   and where pamtopfm's numbers are exact (k/32768), else by the sample k that pfmtopam finds again.
# - What the two sides judge otherwise is printed, with the library's answer held to the one that was decided.
set -u
cd "$(dirname "$0")" || exit 1
opencv=$PWD/opencv.py
have_netpbm() { command -v pnmtoplainpnm pnmtopnm pfmtopam pamtopfm pgmmake pgmramp pgmnoise > /dev/null; }
have_opencv() { /usr/bin/python3 -c 'import cv2' 2> /dev/null; }
have_netpbm || apt-get install --yes --no-install-recommends netpbm > /dev/null || exit 1
have_opencv || apt-get install --yes --no-install-recommends python3-opencv > /dev/null 2>&1

. ../x86_64.sh || exit 1
(cd .. && cargo build --release --offline --quiet -p netpbm_run) || exit 1
built=$(cd .. && pwd)/target/${CARGO_BUILD_TARGET:+$CARGO_BUILD_TARGET/}release/peers
peers() { ${CARGO_TARGET_X86_64_UNKNOWN_LINUX_GNU_RUNNER:-} "$built" "$@"; }
work=$(mktemp -d)
trap 'rm -rf "$work"' EXIT
cd "$work" || exit 1
longest=$(peers longest-side) || exit 1
different=0

# same WHAT COUNT FILE FILE: two texts that must be one.
same() {
    if cmp -s "$3" "$4"; then
        echo "$1: $2, no difference"
    else
        echo "$1: DIFFERENT"
        diff "$3" "$4" | head -n 5 | cut -c1-150
        different=1
    fi
}

# words FILE..: plain PGM of each, one word a line.
words() { for file in "$@"; do pnmtoplainpnm -quiet "$file" | tr -s ' \n' '\n\n' | sed '/^$/d'; done; }

mkdir made
for size in '1 1' '1 7' '7 1' '3 2' '64 48' '641 479' "$longest 1" "1 $longest" '2048 2048'; do
    set -- $size
    name=made/$1x$2
    pgmmake 0.3 "$1" "$2" > "$name-make.pgm"
    pgmnoise -randomseed=7 "$1" "$2" > "$name-noise.pgm"
    for way in lr tb rectangle ellipse diagonal; do
        if [ "$1" -gt 1 ] && [ "$2" -gt 1 ]; then pgmramp "-$way" "$1" "$2" > "$name-$way.pgm"; fi
    done
done
peers levels made/*.pgm > levels.ours
words made/*.pgm > levels.theirs
same "PGM of pgmmake, pgmramp and pgmnoise" "$(ls made | wc -l) files" levels.ours levels.theirs

# every kind of gap at each of the three places, and each byte of white space behind the maximum; the raster has a # and digits
mkdir gaps
gaps=(' ' '\t' '\n' '\r\n' '#touches\n' ' # 7 7 255\n' '\n#\r#\n\t' '#\r')
ends=(' ' '\t' '\n' '\r')
n=0
for a in "${gaps[@]}"; do for b in "${gaps[@]}"; do for c in "${gaps[@]}"; do
    end=${ends[$((n % 4))]}
    width=$(printf "%0$((1 + n % 5))d" 3)
    maximum=$(printf "%0$((3 + n % 3))d" 255)
    printf "P5${a}%s${b}2${c}%s${end}#1\n2 x" "$width" "$maximum" > "gaps/$(printf '%04d' $n).pgm"
    n=$((n + 1))
done; done; done
peers levels gaps/*.pgm > levels.ours
words gaps/*.pgm > levels.theirs
same "PGM with comments and blank space by hand" "$n files" levels.ours levels.theirs
mkdir anew
for file in gaps/*.pgm; do pnmtopnm -quiet "$file" > "anew/${file##*/}"; done
peers levels anew/*.pgm > levels.ours
same "the same, written anew by pnmtopnm" "$n files" levels.ours levels.theirs

# one_a_line FILE: its words.
one_a_line() { tr -s ' \n' '\n\n' < "$1" | sed '/^$/d'; }

# samples FILE: what pfmtopam reads in a PFM file, as plain PGM under the maximum 65535.
samples() { pfmtopam -quiet -maxval=65535 "$1" | pamtopnm -quiet -plain > samples.txt && one_a_line samples.txt; }

# every multiple of 1/65535, as a map of 256 by 256, and maps of other shapes
mkdir levels
{ echo P2 256 256 65535; seq 0 65535; } > levels/square.txt
{ echo P2 2048 32 65535; seq 65535 -1 0; } > levels/wide.txt
{ echo P2 5 3 65535; seq 100 4000 60000 | head -n 15; } > levels/small.txt
{ echo P2 1 1 65535; echo 4660; } > levels/one.txt
for plain in levels/*.txt; do
    one_a_line "$plain" > words.txt
    peers write-levels "$plain" map.pfm
    samples map.pfm > theirs.txt
    same "PFM of the library, read by pfmtopam" "${plain##*/}" theirs.txt words.txt
    # pamtopfm multiplies by the rounded 1/65535, so that its cells are not all the nearest to k/65535; pfmtopam finds k in them
    for endian in big little; do
        pamtopfm -quiet -endian=$endian "$plain" > theirs.pfm
        peers cells theirs.pfm > cells.txt
        peers write cells.txt again.pfm
        samples again.pfm > theirs.txt
        what="PFM of pamtopfm -endian=$endian, read and written by the library, read by pfmtopam"
        same "$what" "${plain##*/}" theirs.txt words.txt
    done
done

# every multiple of 1/32768, which is exact: pamtopfm's file, in both byte orders, has the bits of k/32768
{ echo P2 993 33 32768; seq 0 32768; } > exact.txt
peers write-levels exact.txt map.pfm
peers cells map.pfm > ours.txt
for endian in big little; do
    pamtopfm -quiet -endian=$endian exact.txt > theirs.pfm
    peers cells theirs.pfm > theirs.txt
    same "PFM of pamtopfm -endian=$endian, read by the library, every bit" "exact.txt" theirs.txt ours.txt
done

if have_opencv; then
    /usr/bin/python3 -c 'import cv2; print("OpenCV", cv2.__version__)'
    for size in '1 1' '1 9' '9 1' '37 23' '640 480' "$longest 1" "1 $longest" '1024 1024'; do
        set -- $size
        /usr/bin/python3 "$opencv" finite 3 "$1" "$2" > map.txt
        peers write map.txt map.pfm
        /usr/bin/python3 "$opencv" read map.pfm > theirs.txt
        same "PFM of the library, read by OpenCV, finite cells" "$1 by $2" theirs.txt map.txt
        /usr/bin/python3 "$opencv" make 5 "$1" "$2" > map.txt
        peers write map.txt map.pfm
        /usr/bin/python3 "$opencv" read map.pfm > theirs.txt
        /usr/bin/python3 "$opencv" as-written map.txt > ours.txt
        same "PFM of the library, read by OpenCV, any cells, NaNs as plus infinity" "$1 by $2" theirs.txt ours.txt
        /usr/bin/python3 "$opencv" write map.txt theirs.pfm
        peers cells theirs.pfm > theirs.txt
        /usr/bin/python3 "$opencv" as-read map.txt > ours.txt
        same "PFM of OpenCV, read by the library, any cells" "$1 by $2" theirs.txt ours.txt
    done
else
    echo "OpenCV was LEFT OUT: python3-opencv is not there and could not be installed"
fi

# judged WHAT NUMBER BYTES: a PGM file on which the two sides may differ; the library's answer is the decided one.
judged() {
    printf "$3" > odd.pgm
    ours=$(peers levels odd.pgm | tr '\n' ' ')
    theirs=$(pnmtoplainpnm -quiet odd.pgm 2>&1 | tr -s ' \n' ' ' | cut -c1-100)
    echo "$1: library \"$ours\", netpbm \"$theirs\""
    case $2-$ours in
        0-P2*) ;;
        "$2-refused $2 ") ;;
        *) echo "$1: the library should answer $2"; different=1 ;;
    esac
}
judged "a vertical tab in the header" 0 'P5\v2 1 255\nab'
judged "a form feed in the header" 0 'P5\f2 1 255\nab'
judged "a form feed behind the maximum" 0 'P5 2 1 255\fab'
judged "a comment behind the maximum" 41 'P5 2 1 255#c\nab'
judged "no blank behind P5" 41 'P52 1 255\nab'
judged "no white space behind the maximum" 41 'P5 2 1 255xab'
judged "a sign" 41 'P5 +2 1 255\nab'
judged "a maximum of 254" 42 'P5 2 1 254\nab'
judged "a width of 0" 43 'P5 0 1 255\n'
judged "data cut" 44 'P5 2 1 255\na'
judged "bytes left over" 44 'P5 2 1 255\nabc'

# the size of the scale: the library ignores it, the others divide by it
printf 'Pf\n1 1\n-2.0\n\0\0\0\x3F' > scaled.pfm
echo "a cell 0.5 under the scale -2.0: library $(peers cells scaled.pfm | tail -n 1)," \
    "pfmtopam -maxval=100 $(pfmtopam -quiet -maxval=100 scaled.pfm | pamtopnm -quiet -plain | tail -n 1)" \
    "$(have_opencv && echo "OpenCV $(/usr/bin/python3 "$opencv" read scaled.pfm | tail -n 1)")"
[ "$(peers cells scaled.pfm | tail -n 1)" = 3F000000 ] || different=1
[ "$different" -eq 0 ] && echo "no difference"
exit "$different"

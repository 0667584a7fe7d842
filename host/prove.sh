#!/bin/sh
# host/prove.sh NAME..: proves each crate with those below it, and puts what is built of it where the host's programs look: a static
# library at target/staticlib/libNAME.a, a program at target/bin/NAME. It says what rt says; the status is not 0 where one is not proved.
set -u
cd "$(dirname "$0")/.." || exit 1

# place NAME BUILT PLACED
place() {
    mkdir -p "$(dirname "$3")" && cp "crates/$1/out/$2" "$3.new" && mv "$3.new" "$3"
}

prove() {
    if [ -f "crates/$1/src/main.rt" ]; then
        # rt run builds a program by running it, and what it prints is its test's
        (cd "crates/$1" && if [ -f stdin ]; then rt run < stdin; else rt run < /dev/null; fi) > /dev/null && place "$1" "$1" "target/bin/$1"
    else
        (cd "crates/$1" && rt lib) && place "$1" "lib$1.a" "target/staticlib/lib$1.a"
    fi
}

for name; do
    prove "$name" || exit 1
done

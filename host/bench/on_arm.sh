#!/usr/bin/env bash
# Times on an Arm machine, for which the kit compiles nothing: host/bench/on_arm.sh [WORDS FOR bench]. The kit's compiler is given the
# library as one LLVM module; this script has the same compiler make Arm code of that module too, links the benchmark with it and runs
# it. What is timed is so the module that the proved library is compiled from, not the x86-64 code that is delivered.
set -eu
cd "$(dirname "$0")/../.."
kit=$(cd "$(dirname "$(readlink -f "$(command -v rt)")")/.." && pwd -P)
on=on/$(uname -m)
work=$PWD/target/on_arm
rm -rf "$work/kit"
mkdir -p "$work/kit/$on/toolchain/bin" "$work/target/staticlib" "$work/host"

# a kit whose compiler keeps the module that it is given; all else is the kit's own
for part in "$kit"/*; do [ "${part##*/}" = on ] || ln -s "$part" "$work/kit/"; done
for part in "$kit/$on"/*; do [ "${part##*/}" = toolchain ] || ln -s "$part" "$work/kit/$on/"; done
ln -s "$(readlink -f "$kit/$on/toolchain/lib")" "$work/kit/$on/toolchain/lib"
for tool in clang llvm-ar ld.lld; do
    printf '#!/bin/sh\nif [ -f module.bc ]; then cp module.bc "%s/module.bc"; fi\nexec "%s" "$@"\n' \
        "$work" "$kit/$on/toolchain/bin/$tool" > "$work/kit/$on/toolchain/bin/$tool"
    chmod +x "$work/kit/$on/toolchain/bin/$tool"
done
RATTLE_HOME=$work/kit host/prove.sh plombrisa > "$work/log" 2>&1 || { cat "$work/log"; exit 1; }

"$kit/$on/toolchain/bin/clang" --target=aarch64-unknown-linux-gnu -Wno-override-module -O3 -fPIC -c -x ir "$work/module.bc" -o "$work/plombrisa.o" 2> "$work/log"
rm -f "$work/target/staticlib/libplombrisa.a"
"$kit/$on/toolchain/bin/llvm-ar" rcsD "$work/target/staticlib/libplombrisa.a" "$work/plombrisa.o"
for member in host/*; do [ "$member" = host/target ] || cp -r "$member" "$work/host/"; done
cd "$work/host" && exec cargo run --release --offline --quiet -p bench -- "$@"

#!/bin/sh
# Installs what was built in the repository: the program and its manual page, the static and the shared library, the header, the
# pkg-config file and the Python module. PREFIX says where, and is /usr/local where it is not set; DESTDIR stands before it while a
# package is made. CC, AR, CPPFLAGS, CFLAGS and LDFLAGS mean what they mean elsewhere. Each file that was installed is printed. Where
# something is missing a sentence says what, nothing is installed, and the status is 1.
set -u
cd "$(dirname "$0")/.." || exit 1

fail() {
    echo "host/install.sh: $1" >&2
    exit 1
}

# Names the compiler and cargo's target where this processor is not the library's.
. host/x86_64.sh || fail "the packages that compile for x86-64 are missing: host/x86_64.sh, as root, installs them"

PREFIX=${PREFIX:-/usr/local}
CC=${CC:-cc}
sources=host/plombrisa
proved=target/staticlib/libplombrisa.a
program=host/target/${CARGO_BUILD_TARGET:+$CARGO_BUILD_TARGET/}release/plombrisa
man_page=man/plombrisa.1

# need FILE REMEDY
need() {
    [ -f "$1" ] || fail "$1 is missing: $2"
}

check_sources() {
    need "$proved" "host/prove.sh plombrisa writes it"
    need "$program" "cargo build --release --offline, in host/, writes it"
    for file in "$man_page" "$sources/include/plombrisa.h" "$sources/include/plombrisa.c" "$sources/plombrisa.pc.in" \
        "$sources/python/plombrisa.py"; do
        need "$file" "it is part of the repository"
    done
}

# The pkg-config file names PREFIX, so it has to be found from every folder, and it has to be one word there.
check_prefix() {
    case $PREFIX in
    *[!A-Za-z0-9/._+~-]*) fail "PREFIX is $PREFIX: letters, digits and / . _ + ~ - are taken, for the pkg-config file has to name it" ;;
    /*) ;;
    *) fail "PREFIX is $PREFIX: it has to begin with /" ;;
    esac
}

# The helpers of plombrisa.c, for both libraries. Their object has a name of its own, for the proved one is plombrisa.o.
compile_helpers() {
    $CC -std=c11 -fPIC ${CPPFLAGS:-} ${CFLAGS:--O2} -I "$sources/include" -c "$sources/include/plombrisa.c" -o "$work/helpers.o" ||
        fail "$CC does not compile $sources/include/plombrisa.c: a C compiler for the library's processor is needed, and CC names it"
}

# The proved archive as it is, and the helpers added.
make_static_library() {
    ar=${AR:-$($CC -print-prog-name=ar)}
    { install -m 644 "$proved" "$work/libplombrisa.a" && $ar qs "$work/libplombrisa.a" "$work/helpers.o"; } ||
        fail "$ar does not add the helpers to a copy of $proved"
}

# All of the proved archive and the helpers, of which only the names of the header can be seen from outside.
make_shared_library() {
    echo '{ global: plombrisa_*; local: *; };' > "$work/names"
    $CC -shared ${LDFLAGS:-} -Wl,-soname,"$soname" -Wl,--version-script="$work/names" -Wl,-z,defs \
        -Wl,--whole-archive "$work/libplombrisa.a" -Wl,--no-whole-archive -o "$work/libplombrisa.so" ||
        fail "$CC does not link the shared library"
}

make_pkg_config_file() {
    sed -e "s|@PREFIX@|$PREFIX|" -e "s|@VERSION@|$version|" "$sources/plombrisa.pc.in" > "$work/plombrisa.pc" ||
        fail "the pkg-config file is not made"
}

# put MODE SOURCE PLACE: installs one file, and prints its place.
put() {
    install -D -m "$1" "$2" "${DESTDIR:-}$PREFIX/$3" || fail "${DESTDIR:-}$PREFIX/$3 cannot be written"
    echo "${DESTDIR:-}$PREFIX/$3"
}

# put_link TARGET PLACE: the same for a link to a file that stands beside it.
put_link() {
    ln -sf "$1" "${DESTDIR:-}$PREFIX/$2" || fail "${DESTDIR:-}$PREFIX/$2 cannot be written"
    echo "${DESTDIR:-}$PREFIX/$2"
}

install_all() {
    put 755 "$program" bin/plombrisa
    put 644 "$sources/include/plombrisa.h" include/plombrisa.h
    put 644 "$work/libplombrisa.a" lib/libplombrisa.a
    put 755 "$work/libplombrisa.so" "lib/libplombrisa.so.$version"
    put_link "libplombrisa.so.$version" "lib/$soname"
    put_link "$soname" lib/libplombrisa.so
    put 644 "$work/plombrisa.pc" lib/pkgconfig/plombrisa.pc
    put 644 "$sources/python/plombrisa.py" lib/plombrisa/plombrisa.py
    put 644 "$man_page" share/man/man1/plombrisa.1
}

check_prefix
check_sources
version=$(sed -n 's/^#define PLOMBRISA_VERSION "\(.*\)"$/\1/p' "$sources/include/plombrisa.h")
soname=libplombrisa.so.${version%%.*}
work=$(mktemp -d) || exit 1
trap 'rm -rf "$work"' EXIT
compile_helpers
make_static_library
make_shared_library
make_pkg_config_file
install_all

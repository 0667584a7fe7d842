# The proved library is x86-64 code, so the host's programs are too. On another processor this file, read by `. host/x86_64.sh`,
# has cargo build them for x86-64 and run them under an emulator, with Debian's packages, which it installs as root where they are
# missing; its status is not 0 where they cannot be had. RUNNER is then what a program is started with, `$RUNNER target/bin/heap_print`.
# On x86-64 it does nothing, and RUNNER is empty. A time that is measured under the emulator says nothing of the library's.
RUNNER=
if [ "$(uname -m)" != x86_64 ]; then
    on_x86_64() {
        [ -x /usr/bin/x86_64-linux-gnu-gcc ] && [ -x /usr/bin/x86_64-linux-gnu-g++ ] && [ -x /usr/bin/qemu-x86_64 ] &&
            [ -d /usr/lib/rustlib/x86_64-unknown-linux-gnu ]
    }
    install_for_x86_64() {
        dpkg --add-architecture amd64 && apt-get -o DPkg::Lock::Timeout=300 update &&
            apt-get -o DPkg::Lock::Timeout=300 install --yes --no-install-recommends \
                rustc-web libstd-rust-web-dev:amd64 gcc-x86-64-linux-gnu g++-x86-64-linux-gnu libc6-dev-amd64-cross qemu-user
    }
    # Something else may be installing packages. apt-get waits for dpkg's lock by itself, but not for those of its lists and its
    # archives, so an attempt that met a lock is made again, for five minutes; one that failed otherwise is not.
    attempts=0
    until on_x86_64 || [ "$attempts" -ge 30 ] || [ "$(id -u)" -ne 0 ]; do
        attempts=$((attempts + 1))
        if said=$(install_for_x86_64 2>&1); then
            break
        fi
        case $said in
        *lock*) sleep 10 ;;
        *) attempts=30 && echo "$said" >&2 ;;
        esac
    done
    export RUSTC=/usr/bin/rustc RUSTDOC=/usr/bin/rustdoc
    export CC=x86_64-linux-gnu-gcc CXX=x86_64-linux-gnu-g++
    export CARGO_BUILD_TARGET=x86_64-unknown-linux-gnu
    export CARGO_TARGET_X86_64_UNKNOWN_LINUX_GNU_LINKER=x86_64-linux-gnu-gcc
    export CARGO_TARGET_X86_64_UNKNOWN_LINUX_GNU_RUNNER=qemu-x86_64
    RUNNER=qemu-x86_64
    on_x86_64
fi

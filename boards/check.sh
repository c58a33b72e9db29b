#!/bin/sh
# check.sh TARGET [mps2]: tests/host and its vectors with the archives of target/boards/TARGET, built by a cross compiler and run by
# qemu-user (boards/targets.txt). With mps2, on QEMU's board of that name, a Cortex-M4, with newlib and without guard pages.
set -eu
[ $# -ge 1 ] || { echo "usage: check.sh TARGET [mps2]" >&2; exit 2; }
cd "$(dirname "$0")/.."
archives=$PWD/target/boards/$1
[ -f "$archives/libampferweg.a" ] || { echo "check.sh: no archive in $archives: run 'make archive TARGET=$1'" >&2; exit 2; }

needs() { # PROGRAM PACKAGE..
    command -v "$1" >/dev/null && return
    program=$1
    shift
    echo "check.sh: there is no $program here. Debian: $*" >&2
    exit 2
}

on_linux() { # TARGET
    row=$(sed -n "s/^$1 *| *//p" boards/targets.txt)
    prefix=$(echo "$row" | cut -d'|' -f3 | tr -d ' ')
    EMULATOR=$(echo "$row" | cut -d'|' -f4 | tr -d ' ')
    CC=${prefix}gcc CXX=${prefix}g++ CFLAGS=-static WORK=$PWD/target/host-$1
    needs "$EMULATOR" qemu-user
    needs "$CC" gcc-aarch64-linux-gnu gcc-arm-linux-gnueabihf gcc-riscv64-linux-gnu \
        libc6-dev-arm64-cross libc6-dev-armhf-cross libc6-dev-riscv64-cross
    # A bare archive says so in its attributes, and a linker for Linux refuses it: the checks link copies that say nothing.
    case $1 in *-linux) return ;; esac
    mkdir -p "$WORK"
    for archive in "$archives"/*.a; do "${prefix}objcopy" --remove-section=.ARM.attributes "$archive" "$WORK/${archive##*/}"; done
    archives=$WORK
}

on_mps2() { # TARGET
    board=$PWD/boards/mps2 words='-mcpu=cortex-m4 -mthumb -mfloat-abi=soft'
    CC=arm-none-eabi-gcc CXX=arm-none-eabi-g++ EMULATOR=$board/run.sh WORK=$PWD/target/host-$1-mps2
    needs $CC gcc-arm-none-eabi libnewlib-arm-none-eabi
    needs qemu-system-arm qemu-system-arm
    mkdir -p "$WORK"
    # shellcheck disable=SC2086
    $CC $words -O2 -Wall -Wextra -Werror -c "$board/start.c" -o "$WORK/start.o"
    # newlib's 32-bit numbers are long, which the checks' formats do not say
    CFLAGS="$words -Wno-format -isystem $board --specs=rdimon.specs -nostartfiles -T $board/mps2.ld -Wl,$WORK/start.o"
    CFLAGS="$CFLAGS -Wl,-z,noexecstack -Wl,--no-warn-rwx-segments"
}

if [ "${2:-}" = mps2 ]; then on_mps2 "$1"; else on_linux "$1"; fi
export CC CXX CFLAGS EMULATOR WORK
exec tests/host/run.sh "$archives/libampferweg.a"

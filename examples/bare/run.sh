#!/bin/sh
# run.sh [ARCHIVE] [WORDS..]: builds the image for a Cortex-M4 with libampferweg.a of thumbv7em (that of target/boards where none is named)
# and runs it on QEMU's board mps2-an386. WORDS go to the compiler, as -mfloat-abi=hard. Debian: gcc-arm-none-eabi qemu-system-arm
set -eu
root=$(cd "$(dirname "$0")/../.." && pwd)
here=$root/examples/bare
archive=${1:-$root/target/boards/thumbv7em/libampferweg.a}
[ $# -eq 0 ] || shift
[ -f "$archive" ] || { echo "run.sh: $archive is missing: run 'make archive TARGET=thumbv7em' first" >&2; exit 2; }
for program in arm-none-eabi-gcc qemu-system-arm; do
    command -v $program >/dev/null || { echo "run.sh: there is no $program here; Debian: gcc-arm-none-eabi qemu-system-arm" >&2; exit 2; }
done
mkdir -p "$root/target"
image=$root/target/two_links.elf
arm-none-eabi-gcc -std=c11 -mcpu=cortex-m4 -mthumb -Os -ffreestanding -fno-tree-loop-distribute-patterns \
    -ffunction-sections -fdata-sections -Wall -Wextra -Wshadow -Wconversion -Werror -I "$root/include" "$@" \
    "$here/board.c" "$here/two_links.c" "$archive" \
    -nostdlib -lgcc -Wl,--gc-sections -Wl,-z,noexecstack -Wl,--no-warn-rwx-segments -T "$here/cortex-m4.ld" -o "$image"
arm-none-eabi-size "$image" | awk 'NR == 2 { print "image: " $1 " bytes of flash, " $2 + $3 " of RAM, the stack among them" }'
# 32 ns an instruction, and time leaps where the processor sleeps: every run is the same
exec timeout 300 qemu-system-arm -machine mps2-an386 -display none -monitor none -serial none -icount shift=5,sleep=off \
    -semihosting-config enable=on,target=native -kernel "$image" 2>&1

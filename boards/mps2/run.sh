#!/bin/sh
# run.sh PROGRAM: runs a program of the board under QEMU, with its standard input and output by semihosting.
exec timeout 300 qemu-system-arm -machine mps2-an386 -display none -monitor none -serial none \
    -semihosting-config enable=on,target=native -kernel "$1"

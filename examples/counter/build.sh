#!/bin/sh
# Makes the program of this example, `counter`, as README.md says. It wants the package gcc-riscv64-unknown-elf; the committed file is that
# of its version 12.2.0 with binutils 2.40.
cd "$(dirname "$0")" || exit 2
exec riscv64-unknown-elf-gcc -march=rv32ima -mabi=ilp32 -static -nostdlib -ffreestanding -O0 -gdwarf-4 \
    -ffile-prefix-map="$PWD"=. -Wa,--debug-prefix-map="$PWD"=. -Wall -Wextra -Wl,--build-id=none \
    -o counter ../euclid/start.s counter.c

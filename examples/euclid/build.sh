#!/bin/sh
# Makes the program that the stored run of dbg_program debugs, crates/dbg_program/data/euclid. It wants the package
# gcc-riscv64-unknown-elf; the committed file is that of its version 12.2.0 with binutils 2.40.
cd "$(dirname "$0")" || exit 2
exec riscv64-unknown-elf-gcc -march=rv32ima -mabi=ilp32 -nostdlib -static -ffreestanding -Os -gdwarf-4 \
    -ffile-prefix-map="$PWD"=. -Wa,--debug-prefix-map="$PWD"=. -Wall -Wextra -Wl,--build-id=none \
    -o ../../crates/dbg_program/data/euclid start.s euclid.c

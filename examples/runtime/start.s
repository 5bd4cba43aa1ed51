# Where each hart starts. The machine has set sp, a0 to the hart's number and a1 to the number of harts; main gets both.
    .file "start.s"
    .text
    .globl _start
_start:
    .option push
    .option norelax
    la gp, __global_pointer$
    .option pop
    call main
    # exit of this hart, with main's answer as its code
    li a7, 93
    ecall

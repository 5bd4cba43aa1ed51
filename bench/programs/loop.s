# A loop without an end: an addition, and a jump back.
    .globl _start
_start:
    li a0, 0
again:
    addi a0, a0, 1
    j again

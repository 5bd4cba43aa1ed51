# Calls main on each hart with its number and the number of harts, and then this hart exits.
    .globl _start
_start:
    call main
    li a7, 93
    ecall

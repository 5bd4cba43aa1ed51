# Calls main, and leaves with what it returns: all harts exit (exit_group).
    .globl _start
_start:
    call main
    li a7, 94
    ecall

# Where a program starts: the kernel has put the count of its words into a0, and the address of their table into a1.
        .text
        .globl  _start
_start:
        .option push
        .option norelax
        la      gp, __global_pointer$
        .option pop
        la      tp, __tls_base
        call    mosix_main

# Where a signal's handler returns to.
        .globl  mosix_restorer
mosix_restorer:
        li      a7, 16
        ecall

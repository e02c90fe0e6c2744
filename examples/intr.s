# A read that a signal interrupts: the handler writes `h`, the read answers -4, and the program reads
# again, writes what it read and exits with 4.
    li a0, 10
    la a1, h
    la a2, k
    sys 15
    li a0, 0
    la a1, b
    li a2, 2
    sys 8
    sub s0, x0, a0
    li a0, 0
    la a1, b
    li a2, 2
    sys 8
    mv a2, a0
    li a0, 1
    la a1, b
    sys 9
    mv a0, s0
    sys 1
h:  li a0, 1
    la a1, c
    li a2, 1
    sys 9
    ret
k:  sys 16
c:  .ascii "h"
b:  .space 2

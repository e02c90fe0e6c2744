# Parent and child read from the same pipe, of which both hold the other end: both wait for ever.
    la a0, p
    sys 11
    sys 4
    la a1, p
    lw a0, 0(a1)
    la a1, b
    li a2, 1
    sys 8
    li a0, 0
    sys 1
p:  .space 8
b:  .space 4

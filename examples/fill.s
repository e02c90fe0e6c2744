# Fills a pipe: of ten bytes one fits, whose count it writes to the terminal, and the next write waits
# for ever.
    la a0, p
    sys 11
    la a1, p
    lw s0, 4(a1)
    mv a0, s0
    la a1, b
    li a2, 4095
    sys 9
    mv a0, s0
    la a1, b
    li a2, 10
    sys 9
    addi a0, a0, 48
    la a1, c
    sb a0, 0(a1)
    li a0, 1
    li a2, 1
    sys 9
    mv a0, s0
    la a1, b
    li a2, 1
    sys 9
    li a0, 0
    sys 1
p:  .space 8
c:  .space 4
b:  .space 1
    .bss 4095

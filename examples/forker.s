# Reads two bytes of the terminal and forks. The child reads two more and exits with 7; the parent
# waits for it and exits with the code that the child left.
    li a0, 0
    la a1, b
    li a2, 2
    sys 8
    sys 4
    beq a0, x0, c
    la a0, s
    sys 5
    la a1, s
    lw a0, 0(a1)
    srli a0, a0, 8
    sys 1
c:  li a0, 0
    la a1, b
    li a2, 2
    sys 8
    li a0, 7
    sys 1
s:  .word 0
b:  .space 2

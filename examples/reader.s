# Reads a line of the terminal, writes it back, and counts for a dozen turns. Signal 10 has a handler that does nothing: the program
# goes on where it was, on whichever node that is.
    li a0, 10
    la a1, h
    la a2, k
    sys 15
    li a0, 0
    la a1, b
    li a2, 80
    sys 8
    mv a2, a0
    li a0, 1
    la a1, b
    sys 9
    li s0, 100000
l:  addi s0, s0, -1
    bne s0, x0, l
    li a0, 0
    sys 1
h:  ret
k:  sys 16
b:  .space 80

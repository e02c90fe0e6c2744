# Reads a line of the terminal, writes `r` and exits with 0: while it waits for the line it can be
# moved.
    li a0, 0
    la a1, b
    li a2, 2
    sys 8
    li a0, 1
    la a1, r
    li a2, 1
    sys 9
    li a0, 0
    sys 1
r:  .ascii "r"
b:  .space 2

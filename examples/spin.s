# As `line`, but it goes on for ever: it ends by a signal that it is sent.
    li a0, 0
    la a1, b
    li a2, 2
    sys 8
    li a0, 1
    la a1, r
    li a2, 1
    sys 9
l:  j l
r:  .ascii "r"
b:  .space 2

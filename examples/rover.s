# Counts down from 100,000, which takes a dozen turns, and then writes a line: it does not notice that it moves meanwhile.
    li s0, 100000
l:  addi s0, s0, -1
    bne s0, x0, l
    li a0, 1
    la a1, t
    li a2, 5
    sys 9
    li a0, 0
    sys 1
t:  .ascii "done\n"

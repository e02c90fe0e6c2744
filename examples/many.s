# Forks until it is refused, waits for one child, forks once more, and exits with the number of its
# children.
    li s0, 0
m:  sys 4
    beq a0, x0, c
    blt a0, x0, f
    addi s0, s0, 1
    j m
f:  li a0, 0
    sys 5
    sys 4
    beq a0, x0, c
    addi s0, s0, 1
    mv a0, s0
    sys 1
c:  li a0, 0
    sys 1

# A jump to an address that is even but no multiple of 4: signal 11 at the jump.
    la a0, t
    jalr x0, 2(a0)
t:  li a0, 5
    sys 1

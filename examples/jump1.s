# A jump to an odd address: the target's lowest bit is cleared, so the program goes on at `t` and
# exits with 5.
    la a0, t
    jalr x0, 1(a0)
t:  li a0, 5
    sys 1

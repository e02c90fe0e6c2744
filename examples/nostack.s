# A signal with a handler but no stack to push its frame on: the process ends with signal 11.
    li a0, 10
    la a1, h
    la a2, h
    sys 15
    sys 2
    li a1, 10
    li sp, 0x2000
    sys 14
h:  li a0, 0
    sys 1

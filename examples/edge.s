# A store of four bytes across the end of the stack: the two bytes that lie inside stay as they were,
# and the process ends with signal 11.
    lui a0, 0x80000
    sw x0, -2(a0)

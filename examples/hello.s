# Writes `hi` and a newline to the terminal and exits with 0.
    addi a0, x0, 1
    lui a1, 0x10
    addi a1, a1, 36
    addi a2, x0, 3
    addi a7, x0, 9
    ecall
    addi a0, x0, 0
    addi a7, x0, 1
    ecall
    .ascii "hi\n"

# Two threads run the same four instructions: the first makes the second, and each then goes its way.
    li a0, 69376
    li a1, 0
    li a7, 220
    ecall                   # clone
    addi t0, t0, 1
    li a0, 0
    li a7, 93
    ecall                   # exit

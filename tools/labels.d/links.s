# Every jump leaves its link, also where the link and the base are one register, and beq leaves none.
#: runs=100
#: runs=3,3,100
    jal s0, .+8         # 0
    .word 0             # 4
    addi s1, s0, 20     # 8: s0 is 4
    jalr s1, -4(s1)     # 12: to 20
    .word 0             # 16
    sub a0, s1, s0      # 20: 16 - 4
    beq a0, s0, .-8     # 24: never
    jalr x0, 16(s1)     # 28: to 32
    addi a0, a0, -12    # 32
    li a7, EXIT         # 36
    jal s2, .+8         # 40
    .word 0             # 44
    ecall               # 48

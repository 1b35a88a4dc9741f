# Everything that can name x0 as its target: x0 stays 0, but operands and addresses are tested all the same.
#: data=0x300 runs=100
#: data=0x300 runs=6,3,100
#: data=0x308 runs=100
    addi x0, sp, 5
    lui x0, 7
    add x0, sp, sp
    ld x0, 0x300(x0)
    jal x0, .+4
    sub t0, x0, sp
    beq x0, x0, .+8
    .word 0
    jalr x0, 40(x0)
    .word 0
    ld x0, 0x300(x0)    # 40
    mul x0, sp, sp
    addi x0, t6, 0      # an operand is missing
    .data
    .dword 4

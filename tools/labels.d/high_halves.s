# Jumps to the address that is read. Low halves hold no instruction but at the start; high halves make a program of their own,
# which a jump to an odd place goes through (P10: 13 takes the high half of word 1, and then 17, 21 and so on).
#: tape=13 runs=100
#: tape=12 runs=100
#: tape=9 runs=100
#: tape=10 runs=100
#: tape=11 runs=100
#: tape=14 runs=100
#: tape=15 runs=100
#: tape=8 runs=100
#: tape=16 runs=100
#: tape=17 runs=100
#: tape=13 runs=8,1,1
#: tape=1 runs=14
#: tape=3 runs=14
#: tape=0x400 runs=100
#: tape=0x3ff runs=100
#: tape=0xffffffffffffffff runs=100
#: tape=0x8000000000000008 runs=100
#: tape=0x200 runs=100
#: tape=0x208 runs=100
    j start             # 0
    j start             # 4
    .word 0             # 8
    li s0, 1            # 12
    .word 0             # 16
    addi s0, s0, 2      # 20
    .word 0             # 24
    addi s0, s0, 4      # 28
    .word 0             # 32
    mv a0, s0           # 36
    .word 0             # 40
    li a7, EXIT         # 44
    .word 0             # 48
    ecall               # 52
start:
    li a7, READ
    li a0, 0
    li a1, 0x200
    li a2, 8
    ecall
    ld t0, 0x200(x0)
    jalr ra, 0(t0)

# Weighs two amounts that are read in every way there is, and leaves the results (P1: 0 - 1; P2: lui 0x80000).
#: tape=0,1 runs=100
#: tape=1,0 runs=100
#: tape=5,5 runs=100
#: tape=0xffffffffffffffff,2 runs=100
#: tape=0x8000000000000000,0x8000000000000000 runs=100
#: tape=0x100000001,0xffffffff runs=100
#: tape=0xfedcba9876543210,0x123456789abcdef runs=100
#: tape=3,0x7fffffffffffffff runs=9,4,100
    li a7, READ
    li a0, 0
    li a1, 0x200
    li a2, 16
    ecall
    ld t0, 0x200(x0)
    ld t1, 0x208(x0)
    add s0, t0, t1
    sub s1, t0, t1
    mul s2, t0, t1
    sltu s3, t0, t1
    lui s4, 0x80000
    lui s5, 0xfffff
    lui s6, 1
    addi s7, t0, -2048
    addi s8, t1, 2047
    sd s0, 0x210(x0)
    sd s1, 0x218(x0)
    sd s2, 0x220(x0)
    divu s9, t0, t1
    remu s10, t1, t0
    mv a0, s3
    li a7, EXIT
    ecall

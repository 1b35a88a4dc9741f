# Reads a size and a place from the tape and prints that many bytes from there. Two words stand at 0x300, the third is unwritten.
#: data=0x300 tape=16,0x300 runs=100
#: data=0x300 tape=17,0x300 runs=100
#: data=0x300 tape=0,0x300 runs=100
#: data=0x300 tape=0,0x310 runs=100
#: data=0x300 tape=0,0x311 runs=100
#: data=0x300 tape=0,0x309 runs=100
#: data=0x300 tape=1,0x307 runs=100
#: data=0x300 tape=1,0x30f runs=100
#: data=0x300 tape=2,0x30f runs=100
#: data=0x300 tape=9,0x307 runs=100
#: data=0x300 tape=10,0x307 runs=100
#: data=0x300 tape=15,0x301 runs=100
#: data=0x300 tape=16,0x301 runs=100
#: data=0x300 tape=1,0x2f8 runs=100
#: data=0x300 tape=8,0x2ff runs=100
#: data=0x3e8 tape=24,0x3e8 runs=100
#: data=0x3e8 tape=23,0x3e8 runs=100
#: data=0x3e8 tape=7,0x3f8 runs=100
#: data=0x3e8 tape=8,0x3f8 runs=100
#: data=0x3e8 tape=0,0x3ff runs=100
#: data=0x3e8 tape=0,0x400 runs=100
#: data=0x300 tape=0xffffffffffffffff,0x300 runs=100
#: data=0x300 tape=0xfffffffffffffd00,0x300 runs=100
#: data=0x300 tape=8,0xfffffffffffffff8 runs=100
    li a7, READ
    li a0, 0
    li a1, 0x200
    li a2, 16
    ecall
    ld a2, 0x200(x0)
    ld a1, 0x208(x0)
    li a7, WRITE
    li a0, 1
    ecall
    sd a0, 0x210(x0)
    li a7, EXIT
    li a0, 0
    ecall
    .data
    .dword 0x1122334455667788, 0x99aabbccddeeff00

# Reads a size and a place from the tape, then that many bytes to that place: tails of 1 to 7 bytes, on written and unwritten
# words, and memory's end. At 0x300 stand two words of an old label (P3: a tail of 3).
#: data=0x300 tape=3,0x300,0xaabbccddeeff0011 runs=100
#: data=0x300 tape=1,0x300,0xaabbccddeeff0011 runs=100
#: data=0x300 tape=2,0x300,0xaabbccddeeff0011 runs=100
#: data=0x300 tape=4,0x300,0xaabbccddeeff0011 runs=100
#: data=0x300 tape=5,0x300,0xaabbccddeeff0011 runs=100
#: data=0x300 tape=6,0x300,0xaabbccddeeff0011 runs=100
#: data=0x300 tape=7,0x300,0xaabbccddeeff0011 runs=100
#: data=0x300 tape=1,0x340,0xaabbccddeeff0011 runs=100
#: data=0x300 tape=3,0x340,0xaabbccddeeff0011 runs=100
#: data=0x300 tape=7,0x340 runs=100
#: data=0x300 tape=7,0x340,5 log=2 runs=100
#: data=0x300 tape=11,0x300,1,0xaabbccddeeff0011 runs=100
#: data=0x300 tape=15,0x300,0xffffffffffffffff,0xfedcba9876543210 runs=100
#: data=0x300 tape=19,0x300,3,2,1 runs=100
#: data=0x300 tape=23,0x300,3,2 runs=100
#: data=0x300 tape=23,0x300,3,2 log=4 runs=100
#: data=0x300 tape=24,0x300,3,2,1 log=4 runs=100
#: data=0x300 tape=24,0x300,3,2 log=8 runs=100
#: data=0x300 tape=24,0x300,3,2 log=4 runs=100
#: data=0x300 tape=9,0x300,3 log=8 runs=100
#: data=0x300 tape=9,0x300,3 log=3 runs=100
#: data=0x300 tape=9,0x300,3,4 log=3 runs=100
#: data=0x300 tape=3,0x305,0xaabbccddeeff0011 runs=100
#: data=0x300 tape=8,0x307,0xaabbccddeeff0011 runs=100
#: data=0x300 tape=0,0x300,1 runs=100
#: data=0x300 tape=0,0x3ff runs=100
#: data=0x300 tape=0,0x400 runs=100
#: data=0x300 tape=8,0x3f8,1 runs=100
#: data=0x300 tape=7,0x3f8,0x1122334455667788 runs=100
#: data=0x300 tape=1,0x3ff,0x1122334455667788 runs=100
#: data=0x300 tape=8,0x3f7,0x1122334455667788 runs=100
#: data=0x300 tape=9,0x3f6,1,2 runs=100
#: data=0x300 tape=16,0x3e8,1,2 runs=100
#: data=0x300 tape=16,0x3ef,1,2 runs=100
#: data=0x300 tape=16,0x3f0,1,2 runs=100
#: data=0x300 tape=0xffffffffffffffff,0x300,1 runs=100
#: data=0x300 tape=0xfffffffffffffd00,0x300,1 runs=100
#: data=0x300 tape=0xfffffffffffffcff,0x300,1 runs=100
#: data=0x300 tape=8,0xffffffffffffffff,1 runs=100
#: data=0x300 tape=8,0xfffffffffffffff8,1 runs=100
#: data=0x300 tape=16,0,0x0000007305d00893,0x0000007300000513 runs=100
    li a7, READ
    li a0, 0
    li a1, 0x200
    li a2, 16
    ecall
    ld a2, 0x200(x0)
    ld a1, 0x208(x0)
    li a0, 0
    ecall
    sd a0, 0x210(x0)    # the size that was read
    li a7, EXIT
    li a0, 0
    ecall
    .data
    .dword 0x1122334455667788, 0x99aabbccddeeff00

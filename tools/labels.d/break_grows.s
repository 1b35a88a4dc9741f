# Asks where the break is, then for three new ones, and leaves each answer (P6: with 1024 bytes 1023 is taken, 1024 refused).
#: data=0x300 tape=0x310,0x320,0x330 runs=100
#: data=0x300 tape=0x3ff,0x3ff,0x3fe runs=100
#: data=0x300 tape=0x400,0x3ff,0x400 runs=100
#: data=0x300 tape=0x2ff,0x300,0x307 runs=100
#: data=0x300 tape=0x308,0x307,0x309 runs=11,20,100
#: data=0x300 tape=0xffffffffffffffff,0x8000000000000000,0 runs=100
#: data=0x3f9 tape=0x400,0x401,0x3ff runs=100
#: data=0x300 tape=0x7ff,0x800,0x400 memory=2048 runs=100
    li s1, 0x200        # requests, then answers from 0x240 on
    li s2, 3
    li a7, READ
    li a0, 0
    mv a1, s1
    li a2, 24
    ecall
    li a7, BRK
    li a0, 0
    ecall
    sd a0, 0x238(x0)
ask:
    li a7, BRK
    ld a0, 0(s1)
    ecall
    sd a0, 0x40(s1)
    addi s1, s1, 8
    addi s2, s2, -1
    beq s2, x0, done
    j ask
done:
    li a0, 0
    li a7, EXIT
    ecall
    .data
    .dword 0

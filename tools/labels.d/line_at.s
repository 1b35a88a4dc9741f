# Loads the line at a place that is read, and stores it back one word further on.
#: data=0x300 tape=0x300 runs=100
#: data=0x300 tape=0x301 runs=100
#: data=0x300 tape=0x307 runs=100
#: data=0x300 tape=0x304 runs=100
#: data=0x300 tape=0x3f0 runs=100
#: data=0x300 tape=0x3f8 runs=100
#: data=0x300 tape=0x400 runs=100
#: data=0x300 tape=0x401 runs=100
#: data=0x300 tape=0xfffffffffffffff8 runs=100
#: data=0x300 tape=0xffffffffffffffff runs=100
#: data=0x300 tape=0xfffffffffffffff0 runs=100
#: data=0x300 tape=0x7ffffffffffffff8 runs=100
#: data=0x300 tape=0x310 runs=100
#: data=0x300 tape=0x3f8 memory=2048 runs=100
#: data=0x300 tape=0x7f8 memory=2048 runs=100
    li a7, READ
    li a0, 0
    li a1, 0x200
    li a2, 8
    ecall
    ld t0, 0x200(x0)
    ld t1, 0(t0)
    sd t1, 8(t0)
    ld t2, 8(t0)
    addi t2, t2, 0      # fails if nothing was written there
    li a0, 0
    li a7, EXIT
    ecall
    .data
    .dword 0x0a0b0c0d0e0f0001, 2

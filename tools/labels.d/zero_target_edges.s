# A load into x0 from a place that is read: what is unaligned or outside is found there too.
#: tape=0x201 runs=100
#: tape=0x400 runs=100
#: tape=0x3f8 runs=100
#: tape=0x208 runs=100
    li a7, READ
    li a0, 0
    li a1, 0x200
    li a2, 8
    ecall
    ld t0, 0x200(x0)
    ld x0, 0(t0)
    mv a0, x0
    li a7, EXIT
    ecall

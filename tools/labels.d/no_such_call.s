# Calls by a number that is read: 93 + 2^32 is no call.
#: tape=93 runs=100
#: tape=92 runs=100
#: tape=94 runs=100
#: tape=62 runs=100
#: tape=65 runs=100
#: tape=213 runs=100
#: tape=215 runs=100
#: tape=0 runs=100
#: tape=0x10000005d runs=100
#: tape=0xffffffffffffffff runs=100
#: tape=214 runs=100
#: tape=63 runs=100
#: tape=64 runs=100
    li a7, READ
    li a0, 0
    li a1, 0x200
    li a2, 8
    ecall
    ld a7, 0x200(x0)
    li a0, 1
    ecall
    li a0, 0
    li a7, EXIT
    ecall

# Exits with what is read: 0 is clean, and anything else, counted without a sign, is a bug.
#: tape=0 runs=100
#: tape=1 runs=100
#: tape=0x7fffffffffffffff runs=100
#: tape=0x8000000000000000 runs=100
#: tape=0xffffffffffffffff runs=100
#: tape=0 runs=5,2,5
    li a7, READ
    li a0, 0
    li a1, 0x200
    li a2, 8
    ecall
    ld a0, 0x200(x0)
    li a7, EXIT
    ecall
    nop                 # where a run after the exit goes on
    nop

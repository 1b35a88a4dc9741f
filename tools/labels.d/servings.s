# Reads grams of milk and a number of servings; leaves the share and the rest, prints them, and exits with the rest.
#: tape=120,4 runs=100
#: tape=125,4 runs=100
#: tape=125,0 runs=100
#: tape=0xffffffffffffffff,3 runs=100
#: tape=7,0x8000000000000000 runs=6,100
#: tape=0,1 runs=100
    li a7, READ
    li a0, 0
    li a1, 0x200
    li a2, 16
    ecall
    ld t0, 0x200(x0)
    ld t1, 0x208(x0)
    divu t2, t0, t1
    remu t3, t0, t1
    sd t2, 0x210(x0)
    sd t3, 0x218(x0)
    mul t4, t2, t1
    add t4, t4, t3
    beq t4, t0, right
    li t3, 77           # never: share times servings and the rest are the grams
right:
    li a7, WRITE
    li a0, 1
    li a1, 0x210
    li a2, 16
    ecall
    mv a0, t3
    li a7, EXIT
    ecall

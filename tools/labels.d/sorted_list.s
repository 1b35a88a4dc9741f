# Sorts the four keys that are read by exchanges, prints them, and exits with the smallest.
#: tape=4,2,3,1 runs=300
#: tape=0,2,3,1 runs=300
#: tape=1,2,3,0 runs=60,60,300
#: tape=7,7,0,7 runs=300
    li a7, READ
    li a0, 0
    li a1, 0x200
    li a2, 32
    ecall
    li s2, 3            # passes left
pass:
    beq s2, x0, print
    li s0, 0x200
    li s1, 3            # pairs left
pair:
    beq s1, x0, passed
    ld t0, 0(s0)
    ld t1, 8(s0)
    sltu t2, t1, t0
    beq t2, x0, ordered
    sd t1, 0(s0)
    sd t0, 8(s0)
ordered:
    addi s0, s0, 8
    addi s1, s1, -1
    j pair
passed:
    addi s2, s2, -1
    j pass
print:
    li a7, WRITE
    li a0, 1
    li a1, 0x200
    li a2, 32
    ecall
    ld a0, 0x200(x0)
    li a7, EXIT
    ecall

# Crosses two lists of three, ingredients against warnings, in nested loops, and exits with the number of pairs that are equal.
#: data=0x300 tape=1,2,3 runs=400
#: data=0x300 tape=3,4,9 runs=400
#: data=0x300 tape=9,9,9 runs=150,150,400
    li a7, READ
    li a0, 0
    li a1, 0x200
    li a2, 24
    ecall
    li s0, 0            # pairs that are equal
    li s1, 0x200
    li s2, 0x218        # the end of the ingredients
ingredient:
    beq s1, s2, done
    li s3, 0x300
    li s4, 0x318        # the end of the warnings
warning:
    beq s3, s4, all
    ld t0, 0(s1)
    ld t1, 0(s3)
    addi s3, s3, 8
    beq t0, t1, match
    j warning
match:
    addi s0, s0, 1
    j warning
all:
    addi s1, s1, 8
    j ingredient
done:
    mv a0, s0
    li a7, EXIT
    ecall
    .data
    .dword 9, 4, 3

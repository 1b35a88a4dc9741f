# Adds up the amounts of a list whose length is read first. Longer than the four amounts that are there, it adds an unwritten word.
#: data=0x280 tape=4 runs=100
#: data=0x280 tape=3 runs=100
#: data=0x280 tape=5 runs=100
#: data=0x280 tape=0 runs=100
#: data=0x280 tape=5 runs=10,10,100
#: data=0x3e0 tape=4 runs=100
    li a7, READ
    li a0, 0
    li a1, 0x200
    li a2, 8
    ecall
    ld s0, 0x200(x0)
    li s1, 0x280
    li s2, 0
amount:
    beq s0, x0, done
    ld t0, 0(s1)
    add s2, s2, t0
    addi s1, s1, 8
    addi s0, s0, -1
    j amount
done:
    addi a0, s2, -10    # 0 for all four
    li a7, EXIT
    ecall
    .data
    .dword 1, 2, 3, 4

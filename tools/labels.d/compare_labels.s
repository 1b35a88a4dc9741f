# Reads a label of three lines and compares it with the printed one: exits with 0, or with the number of the first other line.
#: tape=1,4,6 runs=100
#: tape=1,4,5 runs=100
#: tape=2,4,6 runs=12,100
#: tape=1,4 runs=100
#: tape=1,4,6 log=2 runs=100
#: tape=1,0x8000000000000004,6 runs=100
#: tape=1,4,6 runs=1,1,1
    .equ PRINTED, 0x300
    .equ READ_IN, 0x200
    li a7, READ
    li a0, 0
    li a1, READ_IN
    li a2, 24
    ecall
    li s0, PRINTED
    li s1, READ_IN
    li s2, 0            # lines that agree
    li s3, 3
line:
    beq s2, s3, same
    ld t0, 0(s0)
    ld t1, 0(s1)
    addi s2, s2, 1
    addi s0, s0, 8
    addi s1, s1, 8
    beq t0, t1, line
    mv a0, s2
    j leave
same:
    li a0, 0
leave:
    li a7, EXIT
    ecall
    .data               # at 0x300, where the cases put it
    .dword 1, 4, 6

# Copies four lines of a label to the printing plate, but loses the nut line: printing the plate then meets an unwritten word.
#: data=0x180 tape=3,4,5,6 runs=200
#: data=0x180 tape=3,1,5,6 runs=200
#: data=0x180 tape=3,4,5,1 runs=200
#: data=0x180 tape=1,4,5,6 runs=20,20,200
    .equ PLATE, 0x240
    li a7, READ
    li a0, 0
    li a1, 0x200
    li a2, 32
    ecall
    li s0, 0x200
    li s1, PLATE
    li s2, 4            # lines left
    ld s3, 0x180(x0)    # the key that is lost
copy:
    ld t0, 0(s0)
    beq t0, s3, lost
    sd t0, 0(s1)
lost:
    addi s0, s0, 8
    addi s1, s1, 8
    addi s2, s2, -1
    beq s2, x0, print
    j copy
print:
    li a7, WRITE
    li a0, 1
    li a1, PLATE
    li a2, 32
    ecall
    addi a0, a0, -32    # 0 if all was printed
    li a7, EXIT
    ecall
    .data
    .dword PEANUT

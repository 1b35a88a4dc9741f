# Looks up a key in a table by a subroutine that keeps its link on the stack; exits with 0 if the key is there.
#: data=0x300 tape=5 runs=200
#: data=0x300 tape=8 runs=200
#: data=0x300 tape=3 runs=25,25,200
#: data=0x300 tape=3 memory=2048 runs=200
    li a7, READ
    li a0, 0
    li a1, 0x200
    li a2, 8
    ecall
    ld a0, 0x200(x0)
    jal ra, look
    li a7, EXIT
    ecall
look:
    addi sp, sp, -16
    sd ra, 0(sp)
    sd s0, 8(sp)        # unwritten, and moved all the same
    li s0, 0x300
    li t1, 4
entry:
    beq t1, x0, missing
    ld t0, 0(s0)
    jal ra, equal
    addi s0, s0, 8
    addi t1, t1, -1
    beq t2, x0, entry
    li a0, 0
    j return
missing:
    li a0, 1
return:
    ld ra, 0(sp)
    ld s0, 8(sp)
    addi sp, sp, 16
    ret
equal:
    li t2, 1
    beq t0, a0, yes
    li t2, 0
yes:
    jalr ra, 0(ra)      # the link and the base are one register
    .data
    .dword 2, 3, 5, 7

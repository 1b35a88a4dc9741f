# A loop of mixed instructions that never ends and never fails: every form but ecall, eighteen instructions a turn.
    li s0, 0x400
    li s1, 1
    li s2, 3
    li s3, 0
    sd x0, 0(s0)
loop:
    ld t0, 0(s0)
    add t0, t0, s1
    sd t0, 0(s0)
    mul t1, t0, s2
    sub t2, t1, t0
    divu t3, t1, s2
    remu t4, t1, s2
    sltu t5, t2, t1
    beq t5, x0, skip
    addi s3, s3, 1
skip:
    lui t6, 5
    jal ra, step
    addi s4, t3, 7
    beq t4, t6, loop
    j loop
step:
    addi s1, s1, 1
    sd t2, 8(s0)
    jalr x0, 0(ra)

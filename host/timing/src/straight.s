# As label.s without its inner loop: a hundred different instructions a turn, more than a run keeps decoded, and eight bytes written in each.
    li s0, 0x400
    sd x0, 0(s0)
    sd x0, 8(s0)
label:
    .irp n, 1, 2, 3, 4, 5, 6, 7, 8, 9, 10, 11, 12, 13, 14, 15, 16, 17, 18, 19, 20, 21, 22, 23
    ld t1, 0(s0)
    addi t1, t1, \n
    sd t1, 0(s0)
    add t2, t1, s0
    .endr
    li a7, 64
    li a0, 1
    li a1, 0x403
    li a2, 8
    ecall
    li s1, 1
    addi s1, s1, 1
    j label

# A loop as compilers write it, without mul, divu and remu: sums a list of eight words over and over.
    li s0, 0x400        # the list
    li s1, 0x440        # its end
    li s2, 1
    mv t0, s0
fill:
    sd s2, 0(t0)
    addi s2, s2, 3
    addi t0, t0, 8
    beq t0, s1, sums
    j fill
sums:
    mv t0, s0
    li t1, 0
next:
    ld t2, 0(t0)
    add t1, t1, t2
    addi t0, t0, 8
    beq t0, s1, summed
    j next
summed:
    sd t1, 0x480(x0)
    j sums

# Prints price after price, eight digits each: a hundred instructions a turn, and eight bytes written in each.
    li s0, 0x400        # the line
    li s1, 10
    li s2, 0            # the price
    li s3, 256
    li s4, 0            # the sum of all digits
    li s5, 0            # how many labels
price:
    addi s2, s2, 7
    mv t0, s2
    li t2, 0            # the text, its last digit first
    li t3, 8            # digits left
digit:
    remu t1, t0, s1
    divu t0, t0, s1
    add s4, s4, t1
    addi t1, t1, 48
    mul t2, t2, s3
    add t2, t2, t1
    sd t2, 0(s0)
    addi t3, t3, -1
    beq t3, x0, print
    ld t2, 0(s0)
    j digit
print:
    remu t4, s4, s3
    sd t4, 8(s0)
    addi s5, s5, 1
    sd s5, 16(s0)
    li a7, 64
    li a0, 1
    mv a1, s0
    li a2, 8
    ecall
    j price

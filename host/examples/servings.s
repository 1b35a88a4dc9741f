# A label printer that shares lines among servings: reads keys one at a time and keeps the servings and the lines of a label.
# Keys, by the key word modulo 8: 0 one serving more, 1 one serving fewer, 2 a line of the label, 3 print, 4 the order is done;
# all others do nothing. Nobody asks whether a serving is left, so that printing after as many 1s as there were servings divides by zero.
    .equ KEY, 0x400
    li s0, KEY
    ld s1, 0x300(x0)    # servings
    li s2, 0            # lines
    li s3, 8            # keys
next:
    li a7, READ
    li a0, 0
    mv a1, s0
    li a2, 8
    ecall
    ld t0, 0(s0)
    remu t1, t0, s3
    beq t1, x0, more
    addi t1, t1, -1
    beq t1, x0, fewer
    addi t1, t1, -1
    beq t1, x0, line
    addi t1, t1, -1
    beq t1, x0, print
    addi t1, t1, -1
    beq t1, x0, done
    j next
more:
    addi s1, s1, 1
    j next
fewer:
    addi s1, s1, -1
    j next
line:
    li t2, 8
    mul t2, t2, s2
    lui t3, 1           # the lines stand at 0x1000
    add t2, t2, t3
    sd t0, 0(t2)
    addi s2, s2, 1
    j next
print:
    divu t2, s2, s1     # lines a serving
    sd t2, 0(s0)
    li a7, WRITE
    li a0, 1
    mv a1, s0
    li a2, 8
    ecall
    j next
done:
    li a0, 0
    li a7, EXIT
    ecall
    .data
    .dword 4

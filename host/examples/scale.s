# A label printer's scale: reads weights one at a time and adds them up until they are above the limit in the data, then leaves with
# the sum. It runs from any address that is a multiple of eight; the data is at 0x300.
    .equ WEIGHT, 0x380
    li s0, 0            # the sum
    li s1, 10
    ld s2, 0x300(x0)    # the limit
next:
    li a7, READ
    li a0, 0
    li a1, WEIGHT
    li a2, 8
    ecall
    ld t0, WEIGHT(x0)
    remu t0, t0, s1     # a weight from 0 to 9
    add s0, s0, t0
    sltu t1, s2, s0
    beq t1, x0, next
    mv a0, s0
    li a7, EXIT
    ecall
    .data
    .dword 40
    .dword 2

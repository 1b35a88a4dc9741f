# A scale's slip: reads two weights and prints all of them but the first three bytes, then leaves with the number in the data. It runs from
# any address that is a multiple of eight; the data is at 0x300.
    .equ WEIGHTS, 0x380
    li a7, READ
    li a0, 0
    li a1, WEIGHTS
    li a2, 16
    ecall
    li a7, WRITE
    li a0, 1
    li a1, WEIGHTS + 3
    li a2, 13
    ecall
    ld a0, 0x300(x0)
    li a7, EXIT
    ecall
    .data
    .dword 9

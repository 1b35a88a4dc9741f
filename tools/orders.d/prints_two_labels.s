# Prints a label for each key of an order, and reads on until a key is 0: what stands before the name, the key's name, and the end
# of the line, in three writes. An order of two keys prints two labels.
#: tape=1,5,0 runs=200
#: tape=3,2,0 runs=200 output=30
#: tape=1,5,0 runs=200 output=31
#: tape=1,5,0 runs=200 output=25
#: tape=1,5,0 runs=200 output=24
#: tape=1,5,0 runs=200 output=16
#: tape=4,6,0,2 runs=200
#: tape=2,0 runs=200
#: tape=4,4,6,0 runs=200
#: tape=0,1 runs=200
#: tape=1,5 runs=200
#: tape=1,5,0 runs=200 log=1
#: tape=1,5,0 runs=200 log=2
#: tape=1,7,0 runs=200
#: tape=1,5,0 runs=44
#: tape=1,5,0 runs=59
    .equ KEY, 0x200
    .equ BEFORE, 0x300
    .equ AFTER, 0x325
    .equ NAMES, 0x328 - 16  # there is no key 0
    .macro print
    li a7, WRITE
    li a0, 1
    ecall
    .endm
next:
    li a7, READ
    li a0, 0
    li a1, KEY
    li a2, 8
    ecall
    ld s0, KEY(x0)
    beq s0, x0, done
    li a1, BEFORE
    li a2, 9
    print
    li t0, 16
    mul t0, t0, s0
    ld a1, NAMES(t0)
    ld a2, NAMES+8(t0)
    print
    li a1, AFTER
    li a2, 1
    print
    j next
done:
    li a7, EXIT
    li a0, 0
    ecall
    .data
    .ascii "contains peanutalmondmilkeggsesamesoy\n\0\0"
    .dword 0x309, 6, 0x30f, 6, 0x315, 4, 0x319, 3, 0x31c, 6, 0x322, 3

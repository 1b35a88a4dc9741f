# Prints an order from the buffer that a label compiler puts last in memory: as many bytes as the first key says, then the end of the
# line. The buffer has three words; a longer order would leave memory.
#: tape=24,0x1112131415161718,0x2122232425262728,0x3132333435363738 runs=100
#: tape=24,0x1112131415161718,0x2122232425262728,0x3132333435363738 runs=100 output=25
#: tape=24,0x1112131415161718,0x2122232425262728,0x3132333435363738 runs=100 output=24
#: tape=24,0x1112131415161718,0x2122232425262728,0x3132333435363738 runs=100 output=23
#: tape=25,0x1112131415161718,0x2122232425262728,0x3132333435363738,0x41 runs=100
#: tape=23,0x1112131415161718,0x2122232425262728,0x3132333435363738 runs=100
#: tape=17,0x1112131415161718,0x2122232425262728,0x3132333435363738 runs=100
#: tape=16,0x1112131415161718,0x2122232425262728 runs=100
#: tape=0 runs=100
#: tape=24,0x1112131415161718,0x2122232425262728 runs=100
#: tape=24,0x1112131415161718,0x2122232425262728,0x3132333435363738 runs=100 log=3
#: tape=0xffffffffffffffff,0x1112131415161718 runs=100
    .equ SIZE, 0x200
    .equ LINE_END, 0x300
    .equ ORDER, 0x400 - 24
    li a7, READ
    li a0, 0
    li a1, SIZE
    li a2, 8
    ecall
    ld a2, SIZE(x0)
    li a0, 0
    li a1, ORDER
    ecall
    li a7, WRITE
    li a0, 1
    ecall
    li a0, 1
    li a1, LINE_END
    li a2, 1
    ecall
    li a7, EXIT
    li a0, 0
    ecall
    .data
    .ascii "\n\0\0\0\0\0\0\0"

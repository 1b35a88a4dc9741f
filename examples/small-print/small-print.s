# A printer whose small print falls between the lines.
#
# A label has eight lines of seven characters. The clerk keys which line to write, or SMALL for small print, or PRINT. Small
# letters take half the room, so someone let the lines follow each other at half the distance.
#
# The mistake: the printer can only write at a multiple of eight. In small print every other line lies between.

#: --step 40 --rounds 40 --tape-words 1000 --seed 1 --mean arithmetic

    .equ READ, 63
    .equ WRITE, 64
    .equ EXIT, 93
    .equ PRESSED, 0x300     # a key is read to here
    .equ LABEL, 0x340       # a line has eight bytes here, with its line feed
    .equ SIZE, 64

    .equ KEYS, 16           # 0 to 7 write a line, 10 and above do nothing
    .equ LINES, 8
    .equ SMALL, 8
    .equ PRINT, 9

    ld t1, blank(x0)        # at first all lines are dots
    li t0, SIZE
fill:
    addi t0, t0, -8
    sd t1, LABEL(t0)
    beqz t0, filled
    j fill

filled:
    li s0, 8                # s0: from one line to the next
    li s2, 60               # s2: keys until the printer goes to sleep (the search can log 64)

next:
    beqz s2, leave
    addi s2, s2, -1
    li a7, READ
    li a0, 0
    li a1, PRESSED
    li a2, 8
    ecall
    ld s1, PRESSED(x0)
    li t0, KEYS
    remu s1, s1, t0         # s1: the key
    li t0, LINES
    sltu t1, s1, t0
    beqz t1, other
    li t0, 8
    mul t0, s1, t0
    ld t1, texts(t0)        # t1: the line's text
    mul t0, s1, s0
    sd t1, LABEL(t0)        # with small print and an odd line: between two words
    j next

other:
    li t0, SMALL
    beq s1, t0, small
    li t0, PRINT
    beq s1, t0, print
    j next

small:
    li s0, 4                # the mistake
    j next

print:
    li a7, WRITE
    li a0, 1
    li a1, LABEL
    li a2, SIZE
    ecall

leave:
    li a7, EXIT
    li a0, 0
    ecall

    .balign 8
texts:
    .ascii "Brownie\n", "6 cubes\n", "flour..\n", "butter.\n", "eggs...\n", "cocoa..\n", "walnuts\n", "sesame.\n"
blank:
    .ascii ".......\n"

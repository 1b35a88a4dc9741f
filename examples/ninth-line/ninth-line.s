# A printer with eight lines whose clerk can write a ninth.
#
# The lines of the label stand at the very top of the printer's memory. The clerk keys a line's number, 1 to 8, and then its
# text, one of four; 0 prints the label. The program means to send numbers above 8 back to the clerk.
#
# The mistake: the test lets 9 through. The ninth line would stand past the end of memory.

#: --step 40 --rounds 60 --tape-words 1500 --seed 1

    .equ READ, 63
    .equ WRITE, 64
    .equ EXIT, 93
    .equ PRESSED, 0x300     # a key is read to here
    .equ LABEL, 0x3C0       # eight lines of eight characters end at 0x400, where memory ends
    .equ SIZE, 64

    .equ NUMBERS, 32        # the keys give 0 to 31
    .equ TEXTS, 4

    ld t1, line(x0)         # at first all lines are dots
    li t0, SIZE
fill:
    addi t0, t0, -8
    sd t1, LABEL(t0)
    beqz t0, filled
    j fill

filled:
    li s1, 30               # s1: lines until the printer goes to sleep (two keys each, and the search can log 64)

next:
    beqz s1, leave
    addi s1, s1, -1
    jal ra, key
    li t0, NUMBERS
    remu s0, a0, t0         # s0: the line's number
    beqz s0, print
    li t0, 10
    sltu t1, s0, t0         # the mistake: 9 is below 10 too
    beqz t1, next
    jal ra, key
    li t0, TEXTS
    remu t0, a0, t0
    li t2, 8
    mul t0, t0, t2
    ld t1, texts(t0)        # t1: the text
    addi t0, s0, -1
    mul t0, t0, t2
    sd t1, LABEL(t0)
    j next

print:                      # line by line, from a place that has the end of the line behind it
    li s0, 0
    li s2, SIZE
each:
    ld t0, LABEL(s0)
    sd t0, line(x0)
    li a7, WRITE
    li a0, 1
    li a1, line
    li a2, 9
    ecall
    addi s0, s0, 8
    beq s0, s2, leave
    j each

leave:
    li a7, EXIT
    li a0, 0
    ecall

key:                        # reads a key to a0
    li a7, READ
    li a0, 0
    li a1, PRESSED
    li a2, 8
    ecall
    ld a0, PRESSED(x0)
    ret

    .balign 8
texts:
    .ascii "flour...", "eggs....", "milk....", "walnuts."
line:
    .ascii "........\n"

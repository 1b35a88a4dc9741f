# A printer that prints a line that nobody wrote.
#
# A label has four lines of seven characters, from the cake's name down to the allergens. The clerk keys which line to
# write, in any order, or PRINT. The printer prints all lines down to the lowest one that was written.
#
# The mistake: a line between may have been skipped. Whatever was left in the printer's memory comes out there, on a real
# label perhaps the allergens of the cake before.

#: --step 40 --rounds 40 --tape-words 1000 --seed 1

    .equ READ, 63
    .equ WRITE, 64
    .equ EXIT, 93
    .equ PRESSED, 0x300     # a key is read to here
    .equ LABEL, 0x340       # line n of the label stands at LABEL + 8 n, with its line feed

    .equ KEYS, 8
    .equ LINES, 4           # keys 0 to 3 write a line, the others print

    li s0, 0                # s0: how many lines to print
    li s2, 60               # s2: keys until it prints by itself (the search can log 64)

next:
    beqz s2, print
    addi s2, s2, -1
    li a7, READ
    li a0, 0
    li a1, PRESSED
    li a2, 8
    ecall
    ld s1, PRESSED(x0)
    li t0, KEYS
    remu s1, s1, t0         # s1: the key
    li t0, LINES
    sltu t1, s1, t0
    beqz t1, print

    li t0, 8
    mul t1, s1, t0          # where the line stands
    ld t2, texts(t1)
    sd t2, LABEL(t1)
    sltu t0, s1, s0         # is it above the lowest line so far?
    beqz t0, lower
    j next
lower:
    addi s0, s1, 1
    j next

print:
    li a7, WRITE
    li a0, 1
    li a1, LABEL
    li t0, 8
    mul a2, s0, t0          # the mistake: not all of these lines need have been written
    ecall
    li a7, EXIT
    li a0, 0
    ecall

    .balign 8
texts:
    .ascii "Stollen\n", "1 pound\n", "raisins\n", "almonds\n"

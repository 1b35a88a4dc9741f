# A printer that loses the nut line.
#
# The clerk keys an order, and the printer makes up the label. Of its eight keys four do something:
#   NUTS   the cake has nuts: the order says so, and the label gets a nut line
#   COPY   one label more
#   BACK   takes back the key before it
#   PRINT  prints the labels and ends
#
# The mistake: BACK after COPY takes a label away, but clears the nut line too. So NUTS COPY BACK PRINT prints a cake
# with nuts on a label without a nut line. The program looks at what it has printed, and exits with 1 for such a label.

# The search is a matter of luck: with these options seeds 1 to 183 find it, seed 184 does not. Seed 4 does so with few keys.
#: --step 60 --selection 6 --rounds 60 --tape-words 1500 --seed 4

    .equ READ, 63
    .equ WRITE, 64
    .equ EXIT, 93
    .equ PRESSED, 0x300     # a key is read to here

    .equ KEYS, 8
    .equ NUTS, 1
    .equ COPY, 2
    .equ BACK, 3
    .equ PRINT, 7

    li s0, 0                # s0: 1 if the order has nuts
    li s1, 0                # s1: 1 if the label has a nut line
    li s2, 1                # s2: how many labels
    li s3, 0                # s3: the key before
    li s5, 60               # s5: keys until the printer goes to sleep (the search can log 64)

next:
    beqz s5, sleep
    addi s5, s5, -1
    li a7, READ
    li a0, 0
    li a1, PRESSED
    li a2, 8
    ecall
    ld s4, PRESSED(x0)
    li t0, KEYS
    remu s4, s4, t0         # s4: the key

    li t0, NUTS
    beq s4, t0, nuts
    li t0, COPY
    beq s4, t0, copy
    li t0, BACK
    beq s4, t0, back
    li t0, PRINT
    beq s4, t0, print
    j done                  # the other keys do nothing

nuts:
    li s0, 1
    li s1, 1
    j done

copy:
    addi s2, s2, 1
    j done

back:
    li t0, NUTS
    beq s3, t0, no_nuts
    li t0, COPY
    beq s3, t0, no_copy
    j done
no_nuts:
    li s0, 0
    li s1, 0
    j done
no_copy:
    addi s2, s2, -1
    li s1, 0                # the mistake: this line does not belong here

done:
    mv s3, s4
    j next

print:
    li a7, WRITE
label:
    li a0, 1
    li a1, name
    li a2, 12               # characters, the line feed among them
    ecall
    beqz s1, printed
    li a0, 1
    li a1, nut_line
    li a2, 14
    ecall
printed:
    addi s2, s2, -1
    beqz s2, check
    j label

check:
    li a7, EXIT
    li a0, 0
    beqz s0, leave          # no nuts, no nut line needed
    sub a0, s0, s1          # nuts: 1 if the nut line is missing
leave:
    ecall

sleep:
    li a7, EXIT
    li a0, 0
    ecall

name:
    .ascii "Carrot cake\n"
nut_line:
    .ascii "contains nuts\n"

# A printer that divides by the number of allergens.
#
# The clerk keys a page, then what the page asks for. The page ROOM asks how many allergens the cake has, shares the 40
# characters of a line among them, and prints a rule for each to be written on. The other pages ask for one number and do
# nothing with it.
#
# The mistake: a cake without allergens. 40 characters shared among 0 is a division by zero.

#: --step 50 --rounds 40 --tape-words 1000 --seed 1

    .equ READ, 63
    .equ WRITE, 64
    .equ EXIT, 93
    .equ PRESSED, 0x300     # a key is read to here

    .equ PAGES, 4
    .equ ROOM, 2
    .equ ALLERGENS, 15      # 0 to 14 of them: the law lists fourteen

    jal ra, key
    li t0, PAGES
    remu s0, a0, t0         # s0: the page
    jal ra, key             # a0: the number that the page asks for
    li t0, ROOM
    beq s0, t0, room
    j leave

room:
    li t0, ALLERGENS
    remu s1, a0, t0         # s1: how many allergens
    li t0, 40
    divu a2, t0, s1         # a2: characters for each. The mistake: nobody looked whether s1 is 0
    li a7, WRITE
    li a1, rule
next:
    li a0, 1
    ecall
    addi s1, s1, -1
    beqz s1, end
    j next
end:                        # of the line
    li a0, 1
    li a1, feed
    li a2, 1
    ecall

leave:
    li a7, EXIT
    li a0, 0
    ecall

key:                        # reads a key to a0
    li a7, READ
    li a0, 0
    li a1, PRESSED
    li a2, 8
    ecall
    ld a0, PRESSED(x0)
    ret

rule:                       # as much of it as there is room
    .ascii "|_______________________________________"
feed:
    .ascii "\n"

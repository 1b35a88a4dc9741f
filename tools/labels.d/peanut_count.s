# Counts the labels that name peanuts: reads keys until the key 0, and exits with the count.
#: tape=2,1,3,1,0 runs=100
#: tape=2,3,0 runs=100
#: tape=2,1,0 runs=7,9,100
#: tape=1,1 runs=100
#: tape=1,1 runs=3,8,100
#: tape=1,2,3,0 log=3 runs=100
#: tape=1,2,3,0 log=4 runs=100
#: tape=1,2,3 log=3 runs=30,70
    li s0, 0            # peanuts seen
    li s1, 0x200        # where a key is read to
    li s2, PEANUT
next:
    li a7, READ
    li a0, 0
    mv a1, s1
    li a2, 8
    ecall
    ld t0, 0(s1)
    beq t0, x0, done
    beq t0, s2, found
    j next
found:
    addi s0, s0, 1
    j next
done:
    li a7, EXIT
    mv a0, s0
    ecall

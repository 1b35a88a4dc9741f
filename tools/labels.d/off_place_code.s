# The same three words of code at addresses that are no multiple of eight: it is loaded from the word rounded down, and pc is not.
#: code=0x100 runs=100
#: code=0x101 runs=100
#: code=0x103 runs=100
#: code=0x104 runs=100
#: code=0x107 runs=100
#: code=0x10c runs=100
#: code=0x3e8 runs=100
#: code=0x3ef runs=100
    li a0, 0
    li a7, EXIT
    addi a0, a0, 0
    ecall
    li a0, 2
    ecall

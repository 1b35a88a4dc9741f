# Code at the end of memory, with the last instruction just before it, so that the next fetch is outside.
#: code=0x3f0 runs=100
#: code=0x3f0 runs=4,0,1
#: code=0x3f4 runs=100
#: code=0x3e8 runs=100
#: code=0x3f1 runs=100
#: code=0x7f0 memory=2048 runs=100
#: code=0x3f0 memory=2048 runs=100
#: code=0 runs=100
    li s0, MILK
    addi s0, s0, 1
    add s1, s0, s0
    sub s1, s1, s0

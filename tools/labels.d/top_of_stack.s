# Looks at the word at sp, where the number of arguments stands, below it, and above it, where memory ends.
#: runs=100
#: runs=4,1,100
#: runs=100 memory=2048
#: data=0x3f0 runs=100
    ld t0, 0(sp)
    addi t0, t0, 1
    sd t0, -8(sp)
    ld t1, -8(sp)
    sub a0, t1, t0
    ld t2, 8(sp)
    .data
    .dword 6, 5

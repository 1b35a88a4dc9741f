# Data that lies over the code or over argc: what is loaded later stays. The data is `li a0, 7` and `li a7, 93`.
#: data=0 runs=100
#: data=8 runs=100
#: data=7 runs=100
#: data=15 runs=100
#: data=0x3f8 runs=100
#: code=0x3f0 data=0x3f0 runs=100
#: code=0x3e8 data=0x3f8 runs=100
#: code=0x3f0 data=0x3f8 runs=100
    li a0, 0
    li a7, EXIT
    ecall
    ecall
    .data
    .word 0x00700513, 0x05d00893

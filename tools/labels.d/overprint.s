# Prints a new line over its own code: two instructions are read as one word and stored over the next two.
#: tape=0x05d0089300300513 runs=100
#: tape=0x05d0089300000513 runs=100
#: tape=0x0000007300300513 runs=100
#: tape=0x0000000000000000 runs=100
#: tape=0xffffffff00000513 runs=100
#: tape=0x00000013fe9ff06f runs=50
#: tape=0x05d0089300054533 runs=100
#: tape=0x0010007300000513 runs=100
#: tape=0x0020006f05d00893 runs=100
#: tape=0x05d0089300b58533 runs=100
#: tape=0x00000013fe1ff06f,0x05d0089300000513 runs=13,100
    li a7, READ
    li a0, 0
    li a1, 0x200
    li a2, 8
    ecall
    ld t0, 0x200(x0)
    sd t0, 32(x0)
    nop                 # so that the next two share word 4
    nop                 # 32
    nop                 # 36
    ecall               # 40
    j .                 # 44

# A word that is read is run as an instruction: what the table does not have is refused.
#: tape=0x00000000 runs=100
#: tape=0xffffffff runs=100
#: tape=0x00100073 runs=100
#: tape=0x000000f3 runs=100
#: tape=0x00000173 runs=100
#: tape=0x00051063 runs=100
#: tape=0x00054533 runs=100
#: tape=0x00051067 runs=100
#: tape=0x00052503 runs=100
#: tape=0x00a52023 runs=100
#: tape=0x40a50533 runs=100
#: tape=0x40a53533 runs=100
#: tape=0x02a51533 runs=100
#: tape=0x02a54533 runs=100
#: tape=0x04a50533 runs=100
#: tape=0x00000517 runs=100
#: tape=0x0000001b runs=100
#: tape=0x00001513 runs=100
#: tape=0x00000010 runs=100
#: tape=0x00000013 runs=100
#: tape=0x0ff0000f runs=100
    li a7, READ
    li a0, 0
    li a1, 0x200
    li a2, 8
    ecall
    jalr x0, 0x200(x0)

# A row can be run on after it ended: a call moved pc past itself even when it failed, and any other instruction is met again.
#: runs=3,2,3
#: runs=100,100,100
#: runs=3,0,0
    li a7, 999
    ecall               # no such call
    ecall               # and again
    divu t0, a7, x0     # met again and again
    ecall

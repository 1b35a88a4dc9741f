# Mixes without end, so that every run stops at its limit.
#: runs=0
#: runs=1
#: runs=2
#: runs=17
#: runs=0,0,0
#: runs=5,0,6
#: runs=40,41,42
#: runs=1,1,1
    li s0, 0
    li s1, EGG
mix:
    add s0, s0, s1
    sub s2, s1, s0
    sd s0, -8(sp)
    j mix

# Blanks a line of its own code: a register that was never written is stored there, and the word is uninitialised again (P12).
# The blanked word may be the one that is run next, data that is added later, or the word that argc is in.
#: data=0x40 runs=100
#: data=0x40 runs=2,1,1
#: data=0x28 runs=100
#: data=0x3f8 runs=100
#: data=0x48 runs=100
    ld s0, 0x40(x0)     # unwritten, unless the data stands there
    nop
    sd s1, 32(x0)
    sd s1, 0x40(x0)
    ld a0, 0x3f8(x0)
    beq a0, x0, .+20   # over the blanked word
    nop
    nop
    nop                 # 32: blanked
    nop                 # 36
    ld t0, 0x40(x0)     # 40: moved as it is
    sd t0, 0x50(x0)
    add t1, s0, s0
    j .-20              # back to 32
    .data
    .dword 9

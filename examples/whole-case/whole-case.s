# The smallest whole case: exits with 3 at once, in a search of one state and one round, without a tape.
#: --states 1 --step 10 --selection 1 --rounds 1 --ratio 0 --log 4 --tape-words 0

    li a7, 93           # the call exit
    li a0, 3            # with the number 3
    ecall
    ecall

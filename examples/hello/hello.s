# Puts the two letters of "hi" on the console and exits with 0.
_start:
    li a7, 1        # console_put
    li a0, 104      # h
    ecall
    li a7, 1        # console_put
    li a0, 105      # i
    ecall
    li a7, 0        # exit
    li a0, 0
    ecall

# Asks for its own policy and priority for ever: three calls in ten steps.
_start:
    li a7, 17               # getschedparam
loop:
    li a0, 1
    ecall
    add s0, s0, a1
    li a0, 1
    ecall
    add s1, s1, a2
    li a0, 1
    ecall
    addi s2, s2, 1
    j loop

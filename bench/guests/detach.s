# Detaches its own thread for ever, which after the first time is refused with EINVAL: three calls in ten steps.
_start:
    li a7, 13               # detach
loop:
    li a0, 1
    ecall
    add s0, s0, a0
    li a0, 1
    ecall
    add s1, s1, a0
    li a0, 1
    ecall
    addi s2, s2, 1
    j loop

# Three signals of a condition variable that nobody waits on, in ten steps, for ever.
_start:
    la s0, condition        # its word is 0, so that the first signal sets it up
    li a7, 34               # cond_signal
loop:
    mv a0, s0
    ecall
    mv a0, s0
    ecall
    mv a0, s0
    ecall
    addi t0, t0, 1
    xor t1, t1, t0
    sltu t2, t1, t0
    j loop
.bss
condition:
    .space 4

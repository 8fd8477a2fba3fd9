# Loops for ever over nine instructions of arithmetic and a branch.
_start:
    li a0, 0x12345678
loop:
    addi t0, t0, 1
    add a0, a0, t0
    xor t1, t1, a0
    slli t2, t1, 13
    srai t3, a0, 7
    sub a1, t2, t3
    and a2, a1, t1
    sltu a3, a2, a0
    or a0, a1, a3
    bne t0, zero, loop
    j loop

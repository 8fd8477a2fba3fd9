# Loops for ever over loads, a store, arithmetic, branches and a routine: for measuring.
_start:
loop:
    addi t0, t0, 1
    lw t1, 1024(zero)
    add a0, a0, t0
    xor t1, t1, a0
    sw t1, 1024(zero)
    lbu t3, 1025(zero)
    slli t3, t3, 3
    sub a0, a0, t3
    sltu t4, a0, t1
    srai t5, a0, 7
    bge t5, zero, skip
    addi a0, a0, 77
skip:
    call routine
    bne t0, zero, loop
    ebreak
routine:
    andi t6, a0, 255
    ret

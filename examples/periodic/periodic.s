# A control loop with a period of 200 ticks, by absolute sleeping: the time that its work takes does not add up. At the
# begin of each of five periods it reads the clock, and puts how many ticks late that was, as a digit. It is always 3, the
# steps before that call: the neighbour, which never yields, takes no tick of this partition's windows.
_start:
    la s0, begin
    la s1, now
    li s2, 5            # periods
period:
    lw t0, 8(s0)
    li t1, 200000       # 200 ticks of 1000 ns
    add t0, t0, t1
    sw t0, 8(s0)
    li a0, 1            # CLOCK_MONOTONIC
    mv a1, s0
    li a7, 4            # clock_nanosleep
    ecall
    li a0, 1            # the period begins
    mv a1, s1
    li a7, 3            # clock_gettime
    ecall
    lw t0, 8(s1)
    lw t1, 8(s0)
    sub t0, t0, t1
    li a0, 48
count:
    addi a0, a0, 1
    addi t0, t0, -1000
    bne t0, zero, count
    li a7, 1            # console_put
    ecall
    addi s2, s2, -1
    bne s2, zero, period
    li a0, 0
    li a7, 0            # exit
    ecall

.data
begin:
    .word 0
    .word 0
    .word 0
now:
    .word 0
    .word 0
    .word 0

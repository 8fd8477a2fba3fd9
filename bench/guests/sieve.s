# Counts the primes below 8192 by a sieve, one byte a number, for ever. After the first round it puts y where there
# are 1028, else n.
_start:
    la s0, flags            # 1 for a number that is known to be composite
    li s1, 8192
    add s2, s0, s1          # the end of the flags
    li s3, 0                # whether a round is done
round:
    mv t0, s0
clear:
    sw zero, 0(t0)
    addi t0, t0, 4
    bne t0, s2, clear

    li s4, 0                # primes so far
    li t0, 2                # the number
number:
    add t1, s0, t0
    lbu t2, 0(t1)
    bne t2, zero, next
    addi s4, s4, 1
    li t2, 1
    add t1, t1, t0          # the flag of twice the number
cross:
    bgeu t1, s2, next
    sb t2, 0(t1)
    add t1, t1, t0
    j cross
next:
    addi t0, t0, 1
    bne t0, s1, number

    bne s3, zero, round
    li s3, 1
    li a0, 121              # y
    li t0, 1028
    beq s4, t0, tell
    li a0, 110              # n
tell:
    li a7, 1                # console_put
    ecall
    j round

.bss
flags:
    .space 8192

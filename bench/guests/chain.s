# A chain of as many owners as there are mutexes: thread i owns mutex i, INHERIT, and waits for mutex i + 1, the last one
# for input that never comes. Main, at a greater priority, waits for mutex 1 until a time, 40 ticks later each round: six
# steps, of which one is a lock that raises every owner; at the deadline they all fall.
_start:
    li a0, 1
    li a1, 1                # below the owners, so that each runs until it waits
    li a7, 18               # setschedprio
    ecall
    la s0, mutexes
    mv s1, s0
    li a1, 0                # NORMAL
    li a2, 1                # INHERIT
    li a7, 20               # mutex_init
init:
    mv a0, s1
    ecall
    addi s1, s1, 4
    beq a0, zero, init      # ENOMEM where no number is free
    addi s1, s1, -8         # the last one
    la s2, last
make:
    la a0, attributes
    mv a1, s2
    mv a2, s1
    li a7, 10               # create
    ecall
    la s2, link
    addi s1, s1, -4
    bgeu s1, s0, make
    li a0, 1
    li a1, 20
    li a7, 18               # setschedprio
    ecall
    la a1, time
    li a7, 24               # mutex_timedlock
    li s2, 40000
    li s3, 1000000000
    li s4, 0                # the seconds of the time
    li s5, 0                # its nanoseconds
round:
    add s5, s5, s2
    blt s5, s3, wait
    sub s5, s5, s3
    addi s4, s4, 1
    sw s4, 0(a1)
wait:
    sw s5, 8(a1)
    mv a0, s0
    ecall                   # ETIMEDOUT
    j round
link:
    mv s0, a0
    li a7, 22               # mutex_lock
    ecall
    addi a0, s0, 4
    ecall                   # the next one's
last:
    li a7, 22               # mutex_lock
    ecall
    li a7, 2                # console_get
    ecall
.data
attributes:
    .word 0                 # joinable
    .word 1                 # explicit
    .word 1                 # SCHED_FIFO
    .word 10                # priority
    .word 0                 # default stack
time:
    .word 0
    .word 0
    .word 0
.bss
mutexes:
    .space 72

# Two threads that hand a mutex over and over to each other: a signal that wakes, and a wait that blocks.
_start:
    li a0, 0                # default attributes
    la a1, second
    li a7, 10               # create
    ecall
    la s0, mutex            # the words are 0, so that the first use sets each up
    la s1, first_turn
    la s2, second_turn
    mv a0, s0
    li a7, 22               # mutex_lock
    ecall
first:
    mv a0, s2
    li a7, 34               # cond_signal: the second thread waits for the mutex
    ecall
    mv a0, s1
    mv a1, s0
    li a7, 32               # cond_wait: the mutex goes to the second thread
    ecall
    j first
second:
    la s0, mutex
    la s1, first_turn
    la s2, second_turn
    mv a0, s0
    li a7, 22               # mutex_lock
    ecall
loop:
    mv a0, s1
    li a7, 34               # cond_signal: the first thread waits for the mutex
    ecall
    mv a0, s2
    mv a1, s0
    li a7, 32               # cond_wait: the mutex goes to the first thread
    ecall
    j loop
.bss
mutex:
    .space 4
first_turn:
    .space 4
second_turn:
    .space 4

# An ERRORCHECK mutex: its owner's second lock is EDEADLK, 35, the second unlock EPERM, 1. Exits with their sum.
_start: la s1, mutex
        mv a0, s1
        li a1, 1            # ERRORCHECK; a2 is 0, no protocol
        li a7, 20           # pthread_mutex_init: the word at mutex is 1
        ecall
        mv a0, s1
        li a7, 22           # pthread_mutex_lock
        ecall
        mv a0, s1
        ecall               # EDEADLK
        mv s2, a0
        mv a0, s1
        li a7, 25           # pthread_mutex_unlock
        ecall
        mv a0, s1
        ecall               # EPERM
        add a0, a0, s2
        li a7, 0            # exit
        ecall
.bss
mutex:  .space 4

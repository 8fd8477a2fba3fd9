# Main makes a thread, raises it above itself, so that it runs at once, and exits with its result.
_start: li a0, 0            # default attributes: as main, SCHED_FIFO and priority 16
        la a1, work
        li a2, 40           # the argument
        li a7, 10           # pthread_create: a1 is the number of the thread, 2
        ecall
        mv s1, a1
        mv a0, s1
        li a1, 20
        li a7, 18           # pthread_setschedprio
        ecall               # the thread runs until it ends
        mv a0, s1
        li a7, 12           # pthread_join: a1 is the result
        ecall
        mv a0, a1
        li a7, 0            # exit
        ecall
work:   mv t0, a0           # the argument
        li a7, 14           # pthread_self: a1 is 2
        ecall
        add a0, t0, a1
        ret                 # to the return gate: as pthread_exit with a0

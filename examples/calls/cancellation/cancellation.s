# Main cancels a thread that waits for input. Its cleanup handler puts a byte, and main exits with its result.
_start: la a1, work
        li a7, 10           # pthread_create; a0 is 0, default attributes
        ecall               # thread 2
        li a7, 15           # sched_yield: thread 2 runs until it waits
        ecall
        li a0, 2
        li a7, 40           # pthread_cancel
        ecall
        li a0, 2
        li a7, 12           # pthread_join: a1 is PTHREAD_CANCELED, 0xFFFFFFFF
        ecall
        mv a0, a1
        ret                 # exit with its low 8 bits, 255
work:   la a0, undo
        li a1, 33           # the argument of the handler
        li a7, 44           # pthread_cleanup_push
        ecall
        li a7, 2            # console_get: no byte comes
        ecall
undo:   li a7, 1            # console_put: a0 is the argument
        ecall
        ret                 # to the return gate

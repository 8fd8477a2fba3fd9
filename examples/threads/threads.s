# Main creates a thread with argument 5, joins it and exits with its result: the thread answers its argument plus 2.
_start:
    la a1, plus_two     # start routine
    li a0, 0            # default attributes
    li a2, 5            # argument
    li a7, 10           # pthread_create
    ecall
    mv a0, a1           # the new thread's number
    li a7, 12           # pthread_join
    ecall
    mv a0, a1           # its result
    li a7, 0            # exit
    ecall

plus_two:
    addi a0, a0, 2
    ret                 # to the return gate: as pthread_exit with a0

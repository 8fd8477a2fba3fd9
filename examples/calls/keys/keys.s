# A thread's value of a key goes to the key's destructor at its end; main has a value of its own, 0.
_start: la a0, drop         # the destructor
        li a7, 50           # pthread_key_create: a1 is the key, 1
        ecall
        li a0, 0            # default attributes
        mv a2, a1           # the argument
        la a1, work
        li a7, 10           # pthread_create
        ecall
        mv a0, a1
        li a7, 12           # pthread_join
        ecall
        li a0, 1
        li a7, 53           # pthread_getspecific: a1 is the value
        ecall
        mv a0, a1
        ret                 # exit with a0
work:   li a1, 75           # a0 is the argument, the key
        li a7, 52           # pthread_setspecific
        ecall
        ret                 # the thread ends
drop:   li a7, 1            # console_put: a0 is the value
        ecall
        ret                 # to the return gate

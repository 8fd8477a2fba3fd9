# Main waits on a condition variable with its mutex; the thread writes a word and signals.
_start: la s1, mutex        # behind it the condition variable, and a word that the thread writes
        la a1, work
        mv a2, s1           # the argument
        li a7, 10           # pthread_create; a0 is 0, default attributes
        ecall
        mv a0, s1
        li a7, 22           # pthread_mutex_lock: the word 0 is a static initialiser
        ecall
        addi a0, s1, 4
        mv a1, s1
        li a7, 32           # pthread_cond_wait: unlocks the mutex, and has it again when it returns
        ecall
        lw a0, 8(s1)
        ret                 # main returns: exit with a0
work:   li t0, 7
        sw t0, 8(a0)
        addi a0, a0, 4
        li a7, 34           # pthread_cond_signal
        ecall
        ret
.bss
mutex:  .space 12

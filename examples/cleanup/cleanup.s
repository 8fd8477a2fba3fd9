# A worker that is cancelled while it waits on a condition variable. It has its mutex again when its cleanup handler
# runs, which unlocks it; then the destructor of its key puts the key's value, a text. Main joins the worker, sees by
# the result that it was cancelled, locks the mutex, which is free, and puts a text too.
_start:
    la a0, say
    li a7, 50           # pthread_key_create
    ecall
    la t0, key
    sw a1, 0(t0)
    li a0, 0            # default attributes
    la a1, work
    li a2, 0
    li a7, 10           # pthread_create
    ecall
    mv s0, a1           # the worker
    li a7, 15           # sched_yield, so that the worker runs until it waits
    ecall
    mv a0, s0
    li a7, 40           # pthread_cancel
    ecall
    mv a0, s0
    li a7, 12           # pthread_join
    ecall
    li t0, -1           # PTHREAD_CANCELED
    bne a1, t0, leave
    la a0, mutex
    li a7, 22           # mutex_lock
    ecall
    la a0, cancelled
    call say
leave:
    li a0, 0
    li a7, 0            # exit
    ecall

work:
    la t0, key
    lw a0, 0(t0)
    la a1, bye
    li a7, 52           # pthread_setspecific
    ecall
    la a0, mutex
    li a7, 22           # mutex_lock
    ecall
    la a0, unlock
    la a1, mutex
    li a7, 44           # pthread_cleanup_push
    ecall
wait:
    la a0, filled
    la a1, mutex
    li a7, 32           # cond_wait
    ecall
    j wait              # nobody fills anything

# The handler: unlocks the mutex at a0.
unlock:
    li a7, 25           # mutex_unlock
    ecall
    ret

# Puts the text at a0, up to a 0.
say:
    mv t1, a0
    li a7, 1            # console_put
next:
    lbu a0, 0(t1)
    beq a0, zero, said
    ecall
    addi t1, t1, 1
    j next
said:
    ret

.data
mutex:
    .word 0             # PTHREAD_MUTEX_INITIALIZER
filled:
    .word 0             # PTHREAD_COND_INITIALIZER
key:
    .word 0
bye:
    .byte 98
    .byte 121
    .byte 101
    .byte 32
    .byte 0
cancelled:
    .byte 99
    .byte 97
    .byte 110
    .byte 99
    .byte 101
    .byte 108
    .byte 108
    .byte 101
    .byte 100
    .byte 0

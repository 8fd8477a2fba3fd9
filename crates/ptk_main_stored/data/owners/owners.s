# Two threads wait for the main thread's mutex, and the second still waits while the first has it; then p exits with 3.
_start:
    li a0, 1
    li a1, 5
    li a7, 18           # pthread_setschedprio
    ecall
    li a0, 1024
    li a1, 0            # NORMAL
    li a2, 1            # INHERIT
    li a7, 20           # mutex_init
    ecall
    li a0, 1024
    li a7, 22           # mutex_lock
    ecall
    la a1, worker
    li a3, 10
    call create
    la a1, worker
    li a3, 12
    call create
    li a0, 1024
    li a7, 25           # mutex_unlock
    ecall
    li a0, 3
    li a7, 0            # exit
    ecall
worker:
    li a0, 1024
    li a7, 22           # mutex_lock
    ecall
    nop
    nop
    nop
    nop
    li a0, 1024
    li a7, 25           # mutex_unlock
    ecall
    li a7, 11           # pthread_exit
    ecall
# creates a thread that begins at a1, with priority a3
create:
    la a0, attributes
    sw a3, 12(a0)
    li a7, 10           # pthread_create
    ecall
    ret
.data
attributes:
    .word 0             # joinable
    .word 1             # explicit
    .word 1             # SCHED_FIFO
    .word 0             # priority
    .word 0             # default stack

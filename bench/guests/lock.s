# Locks and unlocks a mutex that nobody else wants, for ever: two calls in seven steps.
_start:
    la s0, mutex            # its word is 0, so that the first lock sets it up: NORMAL, no protocol
loop:
    mv a0, s0
    li a7, 22               # mutex_lock
    ecall
    mv a0, s0
    li a7, 25               # mutex_unlock
    ecall
    j loop
.bss
mutex:
    .space 4

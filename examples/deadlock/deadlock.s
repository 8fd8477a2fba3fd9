# A deadlock: main locks left and then right, worker locks right and then left. Each has one and waits for the other.
# Beside each line is the tick of its first step.
_start:
    la a1, worker       #   0
    li a0, 0            #   2  default attributes
    li a2, 0            #   3
    li a7, 10           #   4  pthread_create
    ecall               #   5
    la a0, left         #  17
    li a7, 22           #  19  mutex_lock: it becomes mutex 1
    ecall               #  20
    li a7, 15           #  28  yield: worker runs
    ecall               #  29
    la a0, right        #  54
    li a7, 22           #  56  mutex_lock: blocks, worker has it
    ecall               #  57
    li a0, 0
    li a7, 0            #      exit, which is never reached
    ecall

worker:
    la a0, right        #  33
    li a7, 22           #  35  mutex_lock: it becomes mutex 2
    ecall               #  36
    la a0, left         #  44
    ecall               #  46  mutex_lock: blocks, main has it
    ret

.data
left:
    .word 0             # NORMAL, NONE
right:
    .word 0

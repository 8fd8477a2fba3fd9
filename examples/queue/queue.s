# A queue between two threads: a producer puts letters into a buffer of two places, a consumer takes them out and puts
# them on the console. One mutex guards the buffer. The producer waits on `room` while both places are used, the
# consumer on `filled` while none is; each looks again when its wait has ended.
_start:
    li a0, 0            # default attributes
    la a1, produce
    li a2, 0
    li a7, 10           # pthread_create
    ecall
consume:
    la a0, mutex
    li a7, 22           # mutex_lock
    ecall
    la s0, buffer
look:
    lw t0, 0(s0)
    bne t0, zero, take
    la a0, filled
    la a1, mutex
    li a7, 32           # cond_wait
    ecall
    j look
take:
    lw t1, 4(s0)        # the letter at the first place
    add t2, s0, t1
    lbu s1, 8(t2)
    xori t1, t1, 1      # the other place is now the first
    sw t1, 4(s0)
    addi t0, t0, -1
    sw t0, 0(s0)
    la a0, room
    li a7, 34           # cond_signal
    ecall
    la a0, mutex
    li a7, 25           # mutex_unlock
    ecall
    mv a0, s1
    li a7, 1            # console_put
    ecall
    li t0, 46           # a full stop is the last one
    bne s1, t0, consume
    li a0, 0
    li a7, 0            # exit
    ecall

produce:
    la s2, text
    la s0, buffer
next:
    lbu s1, 0(s2)
    addi s2, s2, 1
    la a0, mutex
    li a7, 22           # mutex_lock
    ecall
full:
    lw t0, 0(s0)
    li t1, 2
    bne t0, t1, put
    la a0, room
    la a1, mutex
    li a7, 32           # cond_wait
    ecall
    j full
put:
    lw t1, 4(s0)        # the place behind those that are used
    add t1, t1, t0
    andi t1, t1, 1
    add t2, s0, t1
    sb s1, 8(t2)
    addi t0, t0, 1
    sw t0, 0(s0)
    la a0, filled
    li a7, 34           # cond_signal
    ecall
    la a0, mutex
    li a7, 25           # mutex_unlock
    ecall
    li t0, 46
    bne s1, t0, next
    ret

.data
mutex:
    .word 0             # PTHREAD_MUTEX_INITIALIZER
filled:
    .word 0             # PTHREAD_COND_INITIALIZER
room:
    .word 0
buffer:
    .word 0             # how many places are used
    .word 0             # the first of them
    .word 0             # a byte for each place
text:
    .byte 113
    .byte 117
    .byte 101
    .byte 117
    .byte 101
    .byte 46

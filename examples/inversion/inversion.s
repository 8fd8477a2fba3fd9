# Priority inversion: low (5) holds a mutex that high (20) wants, while middle (10), which wants nothing, computes.
# The first byte of input is the protocol of the mutex, 0 NONE or 1 INHERIT; the next two wake high and middle. Each
# thread puts its letter: low before it unlocks the mutex, high once it has it, middle at its end.
# Beside each line is the tick of its first step, counted from the begin of the window; of two the second is with NONE.
_start:
    li a7, 2            #   0  console_get: the protocol
    ecall               #   1
    mv a2, a1           #   5
    la a0, mutex        #   6
    li a1, 0            #   8  NORMAL
    li a7, 20           #   9  mutex_init
    ecall               #  10
    la a1, high         #  16
    li a3, 20           #  18
    call create         #  19  high runs at once; behind the call comes 42
    la a1, middle       #  42
    li a3, 10           #  44
    call create         #  45
    li a0, 1            #  63
    li a1, 5            #  64
    li a7, 18           #  65  setschedprio: main becomes low, and middle runs
    ecall               #  66
    la a0, mutex        #  79
    li a7, 22           #  81  mutex_lock
    ecall               #  82
    li t0, 60           #  90
hold:
    addi t0, t0, -1     #  91, and 59 times more; others run from 150 to 160, with NONE to 376
    bne t0, zero, hold
    li a0, 108          # 222, 438  l
    li a7, 1            # 223, 439  console_put
    ecall               # 224, 440
    la a0, mutex        # 228, 444
    li a7, 25           # 230, 446  mutex_unlock: high has it
    ecall               # 231, 447
    li a7, 11           # 485  pthread_exit
    ecall               # 486  and the return gate at 492

high:
    li a7, 2            #  36  console_get: blocks until the second byte comes
    ecall               #  37
    la a0, mutex        # 150
    li a7, 22           # 152  mutex_lock: blocks
    ecall               # 153
    li a0, 104          # 241, 457  h
    li a7, 1            # 242, 458  console_put
    ecall               # 243, 459
    la a0, mutex        # 247, 463
    li a7, 25           # 249, 465  mutex_unlock
    ecall               # 250, 466
    ret                 # 260, 476  and the return gate twice

middle:
    li a7, 2            #  74  console_get: blocks until the third byte comes
    ecall               #  75
    li t0, 100          # 269, 161
compute:
    addi t0, t0, -1     # 270, 162, and 99 times more
    bne t0, zero, compute
    li a0, 109          # 470, 362  m
    li a7, 1            # 471, 363  console_put
    ecall               # 472, 364
    ret                 # 476, 368  and the return gate twice

# A thread that begins at a1, with priority a3.
create:
    la a0, attributes
    sw a3, 12(a0)
    li a7, 10           # pthread_create
    ecall
    ret

.data
mutex:
    .word 0
attributes:
    .word 0             # joinable
    .word 1             # with the policy and priority that follow
    .word 1             # SCHED_FIFO
    .word 0             # priority
    .word 0             # default stack

# Reads the clock, sleeps until 50,000 ns later, and exits with the error of a time that is none.
_start: li a0, 1            # CLOCK_MONOTONIC
        la a1, time
        li a7, 3            # clock_gettime, at tick 4: 0 s and 4,000 ns
        ecall
        lw t0, 8(a1)        # the nanoseconds
        li t1, 50000
        add t0, t0, t1
        sw t0, 8(a1)
        li a0, 1
        li a7, 4            # clock_nanosleep until 54,000 ns, which is tick 54
        ecall
        li t0, -1
        sw t0, 8(a1)
        li a0, 1
        ecall               # EINVAL, 22: nanoseconds below 0
        li a7, 0            # exit
        ecall
.bss
time:   .space 12           # seconds, low and high word, and nanoseconds

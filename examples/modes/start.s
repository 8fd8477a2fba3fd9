# The work of a start-up: it counts for 81 ticks, puts `up` and exits.
_start:
    li t0, 40
count:
    addi t0, t0, -1
    bne t0, zero, count
    li a0, 117          # u
    li a7, 1            # console_put
    ecall
    li a0, 112          # p
    ecall
    li a0, 0
    li a7, 0            # exit
    ecall

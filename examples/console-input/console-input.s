# Puts each byte that it gets, up to a full stop, and exits with 0.
_start:
next:
    li a7, 2            # console_get: waits for a byte
    ecall
    li t0, 46           # full stop
    beq a1, t0, done
    mv a0, a1
    li a7, 1            # console_put
    ecall
    j next
done:
    li a0, 0
    li a7, 0            # exit
    ecall

# Waits for a byte, puts the next one, and exits with the error of a put for which the output has no room.
_start: li a7, 2            # console_get: waits until tick 20
        ecall               # a1 is the byte, 65
        addi a0, a1, 1
        li a7, 1            # console_put
        ecall
        li a0, 33
        ecall               # EAGAIN, 11: `output` is 1
        li a7, 0            # exit
        ecall

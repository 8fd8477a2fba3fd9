# As many threads of one priority as there are, that yield for ever, with two plain steps from one call to the next.
_start:
    li a0, 0                # default attributes
    la a1, loop
    li a7, 10               # create
    ecall
    beq a0, zero, _start    # EAGAIN where no number is free
loop:
    li a7, 15               # yield
    ecall
    j loop

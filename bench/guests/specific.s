# Sets and asks for its own value of a key for ever: three calls in ten steps.
_start:
    li a0, 0                # no destructor
    li a7, 50               # key_create
    ecall
    mv s0, a1
loop:
    li a7, 52               # setspecific
    mv a0, s0
    ecall
    li a7, 53               # getspecific
    mv a0, s0
    ecall
    mv a0, s0
    ecall
    addi a1, a1, 1
    j loop

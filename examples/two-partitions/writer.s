# Writes the bytes at `word`, up to the first 0, and exits with 0.
_start:
    la t0, word
next:
    lbu a0, 0(t0)
    beq a0, zero, done
    li a7, 1            # console_put
    ecall
    addi t0, t0, 1
    j next
done:
    li a0, 0
    li a7, 0            # exit
    ecall

.data
word:
    .byte 108           # l
    .byte 101           # e
    .byte 102           # f
    .byte 116           # t
    .byte 0

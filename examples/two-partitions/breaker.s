# Puts exclamation marks until the output is full, then reads from an address that no partition has.
_start:
fill:
    li a0, 33           # !
    li a7, 1            # console_put
    ecall
    beq a0, zero, fill  # 0 while there is room, 11 (EAGAIN) once there is none
    lw a0, -4(zero)     # 0xFFFFFFFC

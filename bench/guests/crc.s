# Copies a block of 1024 bytes by words and takes the CRC-32 of the copy by a table, for ever; the CRC goes into the
# block, so that the next round's differs. Before that it takes the CRC-32 of "123456789" and puts y where it is
# 0xcbf43926, else n.
_start:
    call make_table
    la a0, nine
    li a1, 9
    call crc
    li t0, 0xcbf43926
    li t1, 121              # y
    beq a0, t0, tell
    li t1, 110              # n
tell:
    mv a0, t1
    li a7, 1                # console_put
    ecall

round:
    la a0, copy
    la a1, block
    li a2, 1024
    call copy_words
    la a0, copy
    li a1, 1024
    call crc
    la t0, block
    lw t1, 0(t0)
    addi t1, t1, 4          # the word of the block that takes the CRC goes round
    andi t1, t1, 1020
    sw t1, 0(t0)
    add t1, t1, t0
    sw a0, 0(t1)
    j round

# Copies a2 bytes, a multiple of 4 and not 0, from a1 to a0.
copy_words:
    lw t0, 0(a1)
    sw t0, 0(a0)
    addi a1, a1, 4
    addi a0, a0, 4
    addi a2, a2, -4
    bne a2, zero, copy_words
    ret

# The CRC-32 of a1 bytes from a0, a1 not 0, into a0.
crc:
    li t0, -1
    la t1, table
crc_byte:
    lbu t2, 0(a0)
    xor t2, t2, t0
    andi t2, t2, 255
    slli t2, t2, 2
    add t2, t2, t1
    lw t2, 0(t2)
    srli t0, t0, 8
    xor t0, t0, t2
    addi a0, a0, 1
    addi a1, a1, -1
    bne a1, zero, crc_byte
    xori a0, t0, -1
    ret

# Writes the table: the CRC-32 of each byte alone.
make_table:
    la t0, table
    li t1, 0                # the byte
    li t2, 256
    li t5, 0xedb88320
table_entry:
    mv t3, t1
    li t4, 8
table_bit:
    andi t6, t3, 1
    srli t3, t3, 1
    beq t6, zero, table_even
    xor t3, t3, t5
table_even:
    addi t4, t4, -1
    bne t4, zero, table_bit
    sw t3, 0(t0)
    addi t0, t0, 4
    addi t1, t1, 1
    bne t1, t2, table_entry
    ret

.data
nine:
    .byte 49
    .byte 50
    .byte 51
    .byte 52
    .byte 53
    .byte 54
    .byte 55
    .byte 56
    .byte 57
    .space 3
.bss
table:
    .space 1024
block:
    .space 1024
copy:
    .space 1024

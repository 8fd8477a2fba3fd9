# The product of two numbers of 64 bits, modulo 2^64: a0, a1 and a2, a3 in, a0, a1 out, the low word first. It takes the
# place of the compiler's routine, which goes bit by bit: the product of two words takes some 150 ticks here and 440
# there. printf of floating point calls it some 170 times.

    .section .text.__muldi3, "ax", @progbits
    .globl __muldi3
    .type __muldi3, @function

# Adds the low word of a product of two words to a4, bit by bit.
.macro add_product one, other
    mv t0, \one
    mv t1, \other
1:  beqz t1, 3f
    andi t2, t1, 1
    beqz t2, 2f
    add a4, a4, t0
2:  slli t0, t0, 1
    srli t1, t1, 1
    j 1b
3:
.endm

# Puts the low digit of t2 before those in a5, and takes it off t2. A digit has 4 bits.
.macro move_digit
    slli t3, t2, 28
    srli a5, a5, 4
    or a5, a5, t3
    srli t2, t2, 4
.endm

# Adds the number a2, shifted left by `left` bits, to the number a5, a4 if a bit of a0 is set.
.macro add_if_bit left
    slli t1, a0, 31 - \left
    bgez t1, 1f
    slli t1, a2, \left
    add a5, a5, t1
    sltu t1, a5, t1
    srli t3, a2, 32 - \left
    add a4, a4, t1
    add a4, a4, t3
1:
.endm

__muldi3:
    li a4, 0                # the product's high word
    add_product a2, a1
    add_product a0, a3
    bgeu a0, a2, .Lordered  # the greater word in a0
    mv t0, a0
    mv a0, a2
    mv a2, t0
.Lordered:
    li t0, 256
    bltu a2, t0, .Lshort

    addi sp, sp, -64        # 0 to 15 times a0's low 28 bits, a word each
    slli t0, a0, 4
    srli t0, t0, 4
    li t1, 0
    .set multiple, 0
    .rept 15
    sw t1, 4 * multiple(sp)
    add t1, t1, t0
    .set multiple, multiple + 1
    .endr
    sw t1, 60(sp)

    slli t1, a2, 2          # for each digit of a2 from the lowest on: the multiple is added to t2
    andi t1, t1, 60
    add t1, t1, sp
    lw t2, 0(t1)            # below 2^32 at each step
    .set digit, 1
    .rept 7
    move_digit
    srli t1, a2, 4 * digit - 2
    andi t1, t1, 60
    add t1, t1, sp
    lw t1, 0(t1)
    add t2, t2, t1
    .set digit, digit + 1
    .endr
    move_digit              # the eighth: a5 is the low word
    add a4, a4, t2
    addi sp, sp, 64

    add_if_bit 28           # a0's high 4 bits
    add_if_bit 29
    add_if_bit 30
    add_if_bit 31
    mv a0, a5
    mv a1, a4
    ret

.Lshort:                    # bit by bit: a0, t3 is doubled
    li a5, 0
    li t3, 0
1:  andi t0, a2, 1
    beqz t0, 2f
    add a5, a5, a0
    sltu t1, a5, a0
    add a4, a4, t3
    add a4, a4, t1
2:  srli t1, a0, 31
    slli t3, t3, 1
    or t3, t3, t1
    slli a0, a0, 1
    srli a2, a2, 1
    bnez a2, 1b
    mv a0, a5
    mv a1, a4
    ret
    .size __muldi3, . - __muldi3

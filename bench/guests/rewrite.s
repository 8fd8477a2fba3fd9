# A loop that writes an instruction over the one that it is about to carry out, and over one that it has: addi and xori
# in turn, as a word and as its bytes.
_start:
    la s0, ahead
    la s1, behind
    lw s2, 0(s0)            # addi a0, a0, 1
    li s3, 0x00154513       # xori a0, a0, 1
loop:
    sw s3, 0(s0)
ahead:
    addi a0, a0, 1
    sb s2, 0(s1)
    srli t0, s2, 8
    sb t0, 1(s1)
    srli t0, s2, 16
    sh t0, 2(s1)
behind:
    addi a1, a1, 1
    sw s3, 0(s1)
    mv t1, s2
    mv s2, s3
    mv s3, t1
    j loop

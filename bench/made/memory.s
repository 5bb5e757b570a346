# A loop of loads and stores of every width: it adds up the data words by bytes, halfwords and words, and
# writes each word anew.
        .globl _start
_start: lui     s0, 0x10000
        li      s2, 0
again:  mv      t0, s0
        addi    t1, s0, 2000
        addi    s2, s2, 1
next:   lw      a0, 0(t0)
        lbu     a1, 4(t0)
        lb      a2, 5(t0)
        lhu     a3, 6(t0)
        sw      a1, 0(t0)
        sb      a0, 4(t0)
        sb      a3, 5(t0)
        lh      a4, 4(t0)
        sh      s2, 6(t0)
        lw      a5, 4(t0)
        sw      a5, 8(t0)
        add     s3, s3, a4
        sh      s3, 10(t0)
        addi    t0, t0, 8
        bltu    t0, t1, next
        j       again

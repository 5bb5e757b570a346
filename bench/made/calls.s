# A loop of branches and calls within the text: which way a branch goes, and which function is called,
# depends on a count of the turns, with a period of eight.
        .globl _start
_start: li      s0, 0
again:  addi    s0, s0, 1
        andi    a0, s0, 7
        jal     ra, chosen
        add     s1, s1, a0
        andi    a0, s0, 3
        beqz    a0, even
        jal     ra, double
        bgeu    s0, s1, again
        jal     ra, sign
        j       again
even:   jal     ra, sign
        bne     a0, s1, again
        addi    s1, s1, 1
        j       again
chosen: li      t1, 4
        blt     a0, t1, low
        beq     a0, t1, four
        addi    a0, a0, -3
        ret
low:    bnez    a0, some
        li      a0, 9
some:   ret
four:   mv      t2, ra
        jal     ra, double
        jr      t2
double: add     a0, a0, a0
        ret
sign:   bge     s0, zero, plus
        li      a0, -1
        ret
plus:   li      a0, 1
        ret

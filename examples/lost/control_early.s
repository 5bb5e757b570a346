# The same, but it clears its event before it looks into the box.
loop:
    li   a0, 1          # 00
    li   a7, 11         # 04  WaitEvent
    ecall               # 08
    li   a0, 1          # 0c
    li   a7, 9          # 10  ClearEvent
    ecall               # 14
drain:
    li   a0, 0          # 18
    li   a7, 17         # 1c  Receive
    ecall               # 20
    bnez a0, loop       # 24
    li   t0, 100        # 28
    li   t1, 0          # 2c
scale:
    add  t1, t1, a1     # 30
    addi t0, t0, -1     # 34
    bnez t0, scale      # 38
    li   a0, 0          # 3c
    mv   a1, t1         # 40
    li   a7, 19         # 44  WriteOutput
    ecall               # 48
    j    drain          # 4c

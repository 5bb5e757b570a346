# Takes what is in the box, writes 100 times the word to port 0, and waits for more. It clears its event too late.
loop:
    li   a0, 1          # 00
    li   a7, 11         # 04  WaitEvent
    ecall               # 08
drain:
    li   a0, 0          # 0c
    li   a7, 17         # 10  Receive
    ecall               # 14
    bnez a0, empty      # 18
    li   t0, 100        # 1c
    li   t1, 0          # 20
scale:
    add  t1, t1, a1     # 24
    addi t0, t0, -1     # 28
    bnez t0, scale      # 2c
    li   a0, 0          # 30
    mv   a1, t1         # 34
    li   a7, 19         # 38  WriteOutput
    ecall               # 3c
    j    drain          # 40
empty:
    li   a0, 1          # 44
    li   a7, 9          # 48  ClearEvent
    ecall               # 4c
    j    loop           # 50

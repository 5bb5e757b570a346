# Reads input port 0, sends the word to the box, tells the control task, and ends.
    li   a0, 0          # 00
    li   a7, 18         # 04  ReadInput
    ecall               # 08
    li   a0, 0          # 0c
    li   a7, 16         # 10  Send
    ecall               # 14
    li   a0, 0          # 18
    li   a1, 1          # 1c
    li   a7, 8          # 20  SetEvent
    ecall               # 24
    li   a7, 2          # 28  TerminateTask
    ecall               # 2c

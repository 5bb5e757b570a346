# The same, with a checkpoint every 16 polls: an event that the task sets itself ends no turn, and begins an epoch.
loop:
    li a0, 0
    li a1, 1
    li a7, 8           # SetEvent of itself, task 0
    ecall
    li a0, 1
    li a7, 11          # WaitEvent
    ecall
    li a0, 1
    li a7, 9           # ClearEvent
    ecall
    li t0, 16          # polls between two checkpoints
poll:
    li a0, 0
    li a7, 17          # Receive
    ecall
    bnez a0, empty
    li a0, 0
    li a7, 19          # WriteOutput
    ecall
empty:
    addi t0, t0, -1
    bnez t0, poll
    j loop

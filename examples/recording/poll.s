# Looks into the box until it has a word, and writes it to port 0.
loop:
    li a0, 0
    li a7, 17          # Receive
    ecall
    bnez a0, loop
    li a0, 0
    li a7, 19          # WriteOutput
    ecall
    j loop

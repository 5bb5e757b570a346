# Where a task begins: at address 0, with sp at the end of its data and 0 in every other register.
    .section .start, "ax"
    .globl _start
_start:
    call main
    li   a7, 2          # TerminateTask
    ecall
    ebreak              # it is refused while a resource is held: a fault, which ends the run

/* The memory of a task: text from 0 on, which is read only, and data from 10000000 hex on. */
ENTRY(_start)

/* The bytes of the stack, behind the variables; -Wl,--defsym=STACK=1024 gives it more. */
stack = DEFINED(STACK) ? STACK : 256;

MEMORY
{
    text (rx) : ORIGIN = 0x00000000, LENGTH = 64K
    data (rw) : ORIGIN = 0x10000000, LENGTH = 64K
}

PHDRS
{
    text PT_LOAD;
    data PT_LOAD;
}

SECTIONS
{
    .text : { *(.start) *(.text .text.*) *(.rodata .rodata.* .srodata .srodata.*) } >text :text
    .data : { *(.data .data.* .sdata .sdata.*) } >data :data
    .bss (NOLOAD) : { *(.bss .bss.* .sbss .sbss.* COMMON) . = ALIGN(16); . += stack; } >data :data
    /DISCARD/ : { *(.comment .eh_frame .riscv.attributes .note.*) }
}

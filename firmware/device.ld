/* The analyser's 512 KB as one region. Code, tables and lent buffers stand at its start, and the linker says if they do
 * not fit. All that is left is the stack. */
MEMORY
{
    memory (rwx) : ORIGIN = 0, LENGTH = 512K
}

ENTRY(main)

SECTIONS
{
    .text : { KEEP(*(.vectors)) *(.text*) *(.rodata*) } > memory
    .data : { *(.data*) } > memory
    .bss : { *(.bss*) *(COMMON) } > memory
    stack_bottom = ALIGN(8);
    stack_top = ORIGIN(memory) + LENGTH(memory);
}

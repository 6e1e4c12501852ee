/* A flat program for 256 pages of RAM, those of `cherisim image`: _start is its first byte, and the stack begins at the end of RAM. */
OUTPUT_ARCH(riscv)
ENTRY(_start)

MEMORY { RAM : ORIGIN = 0x80000000, LENGTH = 256 * 4096 }

/* what is loaded, with the permissions that the linker writes down (1 execute, 2 write, 4 read) */
PHDRS { code PT_LOAD FLAGS(5); data PT_LOAD FLAGS(6); }

SECTIONS
{
    .text   : { *(.text.start) *(.text .text.*) } > RAM :code
    .rodata : { *(.rodata .rodata.* .srodata .srodata.*) } > RAM :code
    .data   : { *(.data .data.* .sdata .sdata.*) } > RAM :data
    .bss (NOLOAD) : { *(.bss .bss.* .sbss .sbss.* COMMON) } > RAM :data
    /DISCARD/ : { *(.comment) *(.riscv.attributes) *(.eh_frame) *(.note .note.*) }
}

stack_top = ORIGIN(RAM) + LENGTH(RAM);

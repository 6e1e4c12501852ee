/* A test of the suite at the beginning of RAM, with its code, its data and its signature. */
OUTPUT_ARCH(riscv)
ENTRY(rvtest_entry_point)

/* with the permissions that the linker writes down (1 execute, 2 write, 4 read) */
PHDRS { code PT_LOAD FLAGS(5); data PT_LOAD FLAGS(6); }

SECTIONS
{
    . = 0x80000000;
    .text.init : { *(.text.init) } :code
    .text : { *(.text .text.*) } :code
    .data : { *(.data .data.*) } :data
    .data.string : { *(.data.string) } :data
    .bss : { *(.bss .bss.*) } :data
    _end = .;
}

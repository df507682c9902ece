/* Code with its constants in a segment that can't be written, data in one that isn't executable, and the records beside. */
OUTPUT_ARCH(mips)
ENTRY(__start)

PHDRS
{
    code PT_LOAD FLAGS(5);
    data PT_LOAD FLAGS(6);
}

SECTIONS
{
    . = 0x00400000 + SIZEOF_HEADERS;
    .text : { *(.text .text.*) } :code
    .rodata : { *(.rodata .rodata.*) } :code

    . = ALIGN(0x10000);
    .data : { *(.data .data.*) } :data

    /* Small data (-G8), 64 KiB that register 28 reaches from the middle. */
    _gp = ALIGN(16) + 0x7FF0;
    .sdata : { *(.sdata .sdata.* .lit4 .lit8) } :data
    .sbss : { *(.sbss .sbss.* .scommon) } :data
    .bss : { *(.bss .bss.* COMMON) } :data

    /* Not loaded, and kept where the linker drops what nothing names (--gc-sections). */
    .wcet 0 : { KEEP(*(.wcet)) } :NONE

    /DISCARD/ : { *(.MIPS.abiflags .reginfo .pdr .gnu.attributes .eh_frame .mdebug.*) }
}

/* The pages of the import program: code and constants, then data. */
ENTRY(_start)
SECTIONS
{
    . = 0x80000000;
    .text : { *(.start) *(.text .text.*) }
    .rodata : { *(.rodata .rodata.*) }
    . = 0x80001000;
    .bss : { *(.bss .bss.*) *(COMMON) }
    /DISCARD/ : { *(.MIPS.abiflags) *(.reginfo) *(.pdr) *(.comment) *(.gnu.attributes) *(.mdebug.*) *(.note.*) }
}

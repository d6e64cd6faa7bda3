ENTRY(_start)
SECTIONS
{
    . = 0x20001000;
    .text : { *(.start) *(.text .text.*) *(.rodata .rodata.*) }
    . = 0x20002000;
    .data : { *(.ticks) *(.data .data.*) *(.bss .bss.*) *(COMMON) }
    /DISCARD/ : { *(.MIPS.abiflags) *(.reginfo) *(.pdr) *(.comment) *(.gnu.attributes) *(.mdebug.*) *(.note.*) }
}

/* The house map. Data accesses never reach code, so constants and jump tables stand in the window too, behind the card. */
ENTRY(_start)
SECTIONS
{
    . = 0x10000;
    .text : { *(.start) *(.text .text.*) }

    . = 0x40000000;
    .data : { *(.card) *(.rodata .rodata.*) *(.data .data.*) *(.sdata .sdata.*) *(.bss .bss.*) *(.sbss .sbss.*) *(COMMON) }

    /DISCARD/ : { *(.comment) *(.note*) *(.eh_frame*) }

    ASSERT(SIZEOF(.text) <= 65536, "the code is longer than 65,536 bytes")
    ASSERT(SIZEOF(.data) <= 65536, "the data is longer than 65,536 bytes")
}

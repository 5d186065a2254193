/* The text from the base on, then the data, then the stack: an area of less than 64 KiB. Jump tables stand in the text,
   so that the area lent as data begins at the base too. The stack's top leaves room for the 92 bytes that a called
   function may write above its caller's stack pointer; with windows it writes none of the first 64, from which QEMU
   fills the caller's window. */
ENTRY(start)
SECTIONS
{
    . = 0x00100000;
    area = .;
    .text : { *(.start) *(.text .text.*) . = ALIGN(8); }
    .data : { *(.rodata .rodata.*) *(.data .data.*) *(.bss .bss.* COMMON) . = ALIGN(8); }
    data_end = .;
    stack = . + 2048;
    area_length = stack + 96 - area;
    /DISCARD/ : { *(.comment) *(.note.*) *(.gnu.attributes) }
}

/* What a board has for its code, from 0, and for the rest, which is zero at first: code_size and data_size, in bytes. */
MEMORY
{
    code (rx) : ORIGIN = 0x00000000, LENGTH = code_size
    data (rw) : ORIGIN = 0x20000000, LENGTH = data_size
}
ENTRY(board_reset)
SECTIONS
{
    .text : { KEEP(*(.vectors)) *(.text*) *(.rodata*) } > code
    .ARM.exidx : { *(.ARM.exidx*) } > code
    .bss : { *(.bss*) *(COMMON) } > data
    /* Nothing has a value at first: what would copy it from the code is not here */
    .data : { *(.data*) } > data
    ASSERT(SIZEOF(.data) == 0, "something has a value at first")
    board_stack = ORIGIN(data) + LENGTH(data);
}

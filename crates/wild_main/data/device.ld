/* A small firmware: vectors, code and constants in flash; what is written in RAM, loaded behind them. */
MEMORY {
    FLASH : ORIGIN = 0x08000000, LENGTH = 64K
    RAM : ORIGIN = 0x20000000, LENGTH = 8K
}
ENTRY(reset)
SECTIONS {
    .vectors : { KEEP(*(.vectors)) } > FLASH
    .text : {
        *(.text .text.*)
        . = ALIGN(4);
        _etext = .;
    } > FLASH
    .rodata : ALIGN(8) {
        *(.rodata SORT(.rodata.*))
        . = ALIGN(4);
        _sidata = .;
    } > FLASH

    .data : AT(_sidata) {
        _sdata = .;
        *(.data .data.*)
        . = ALIGN(4);
        _edata = .;
    } > RAM
    .bss (NOLOAD) : {
        _sbss = .;
        *(.bss .bss.* COMMON)
        _ebss = .;
    } > RAM
    PROVIDE(_stack = ORIGIN(RAM) + LENGTH(RAM));

    /DISCARD/ : { *(.comment .ARM.*) }
}
ASSERT(LOADADDR(.data) + SIZEOF(.data) <= ORIGIN(FLASH) + LENGTH(FLASH), "the code does not fit")
ASSERT(_ebss + 2K <= _stack, "there is no room for the stack")

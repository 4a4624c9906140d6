/* Code, then what is only read, then what is written. */
SECTIONS {
    .text : {
        *(.text.startup.main)
        *(.text .text.average .text.describe)
    }
    .rodata : {
        *(.rodata.factors .rodata.names .rodata.cst8)
        *(.rodata.describe.str1.1 .rodata.main.str1.1)
    }
    .eh_frame : { *(.eh_frame) }
    .data : { *(.data .data.readings .data.calls) }
    .bss : { *(.bss) }
    data_end = .;
    /DISCARD/ : { *(.comment .note.GNU-stack) }
    ASSERT(data_end <= 1K, "hello does not fit")
}
PROVIDE(heap_start = ALIGN(data_end, 4K));

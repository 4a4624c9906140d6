/* In the style of the scripts of EFI programs: each section at a page of its own, named for what an image needs. */
OUTPUT_FORMAT("elf64-x86-64", "elf64-x86-64", "elf64-x86-64")
OUTPUT_ARCH(i386:x86-64)
ENTRY(_start)
SECTIONS {
    . = 0;
    ImageBase = .;
    .hash : { *(.hash) }
    . = ALIGN(4096);
    .eh_frame : { *(.eh_frame) }
    . = ALIGN(4096);
    .text : {
        _text = .;
        *(.text)
        *(.text.*)
        *(.gnu.linkonce.t.*)
        . = ALIGN(16);
    }
    _etext = .;
    _text_size = . - _text;
    . = ALIGN(4096);
    .reloc : { *(.reloc) }
    . = ALIGN(4096);
    .data : {
        _data = .;
        *(.rodata*)
        *(.got.plt)
        *(.got)
        *(.data*)
        *(.sdata)
        /* what is 0 at the start is in the image too */
        *(.sbss)
        *(.scommon)
        *(.dynbss)
        *(.bss*)
        *(COMMON)
    }
    . = ALIGN(4096);
    _edata = .;
    _data_size = . - _data;
    .dynsym : { *(.dynsym) }
    .dynstr : { *(.dynstr) }
    /DISCARD/ : { *(.rel.reloc) *(.note.GNU-stack) *(.comment) }
    .ignored.reloc : { *(.rela.reloc) *(.note*) }
}

MEMORY { FLASH : ORIGIN = 0x08000000, LENGTH = 512K
         RAM : ORIGIN = 0x20000000, LENGTH = 128K }
ENTRY(Reset)
SECTIONS {
  .vectors : { KEEP(*(.vectors)) } > FLASH
  .text : { *(.text .text.*) . = ALIGN(4); _etext = .; } > FLASH
  .data : AT(_etext) { _sdata = .; *(.data .data.*) _edata = .; } > RAM
  .bss (NOLOAD) : { *(.bss .bss.* COMMON) } > RAM
}

/* For the host and for its guests: BASE is where it starts. .far is a page of its own that nothing else touches. */
ENTRY(_start)
SECTIONS {
    . = BASE;
    .text : { *(.text.start) *(.text*) }
    .rodata : { *(.rodata*) *(.srodata*) }
    .data : { *(.data*) *(.sdata*) . = ALIGN(4096); *(.far) }
    .bss : { . = ALIGN(4096); bss_start = .; *(.bss*) *(.sbss*) *(COMMON) . = ALIGN(8); bss_end = .; }
    /DISCARD/ : { *(.eh_frame*) *(.comment) *(.note*) }
}

/* The board's memories: 4 MB where the processor starts, 16 MB beside. QEMU loads both. */
MEMORY {
    CODE (rx) : ORIGIN = 0x00000000, LENGTH = 4M
    RAM (rwx) : ORIGIN = 0x21000000, LENGTH = 15M
    STACK (rw) : ORIGIN = 0x21f00000, LENGTH = 1M
}
SECTIONS {
    .vectors : { KEEP(*(.vectors)) } >CODE
    .text : { *(.text*) *(.rodata*) } >CODE
    .ARM.exidx : { __exidx_start = .; *(.ARM.exidx*) __exidx_end = .; } >CODE
    .data : { *(.data*) } >RAM
    .bss (NOLOAD) : { . = ALIGN(8); bss_start = .; *(.bss*) *(COMMON) . = ALIGN(8); bss_end = .; } >RAM
    end = .;
    stack_top = ORIGIN(STACK) + LENGTH(STACK);
}

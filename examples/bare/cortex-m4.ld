/* A Cortex-M4 of middle size; QEMU's board mps2-an386 has more. */
MEMORY { FLASH (rx) : ORIGIN = 0x00000000, LENGTH = 128K  RAM (rwx) : ORIGIN = 0x20000000, LENGTH = 192K }
stack_size = 8K;
SECTIONS {
    .vectors : { KEEP(*(.vectors)) } >FLASH
    .text : { *(.text*) *(.rodata*) } >FLASH
    .ARM.exidx : { *(.ARM.exidx*) } >FLASH
    .stack (NOLOAD) : { . = ALIGN(8); stack_bottom = .; . += stack_size; stack_top = .; } >RAM
    .data : { . = ALIGN(8); data_start = .; *(.data*) . = ALIGN(8); data_end = .; } >RAM AT>FLASH
    data_load = LOADADDR(.data);
    .bss (NOLOAD) : { . = ALIGN(8); bss_start = .; *(.bss*) *(COMMON) . = ALIGN(8); bss_end = .; } >RAM
    /DISCARD/ : { *(.comment) *(.note*) *(.ARM.attributes) }
}

/* Code and constants in flash, all else in RAM, the stack from RAM's end down. The sizes are those
 * of a small node. The addresses are the board's: flash and ram are given by --defsym. */
ENTRY(begin)
MEMORY
{
    FLASH (rx) : ORIGIN = flash, LENGTH = 256K
    RAM (rw) : ORIGIN = ram, LENGTH = 16K
}
SECTIONS
{
    .text : {
        KEEP(*(.start))
        *(.text .text.* .rodata .rodata.* .srodata .srodata.*)
        . = ALIGN(4);
    } >FLASH
    .ARM.exidx : { *(.ARM.exidx .ARM.exidx.* .ARM.extab .ARM.extab.*) } >FLASH
    .data : {
        data_begin = .;
        *(.data .data.*)
        __global_pointer$ = . + 0x800;
        *(.sdata .sdata.*)
        . = ALIGN(4);
        data_end = .;
    } >RAM AT>FLASH
    data_from = LOADADDR(.data);
    .bss (NOLOAD) : {
        bss_begin = .;
        *(.sbss .sbss.* .bss .bss.* COMMON)
        . = ALIGN(8);
    } >RAM
    .tbss (NOLOAD) : {
        thread_begin = .;
        *(.tbss .tbss.*)
    } >RAM
    /* A section of thread storage takes no room of itself. */
    .thread (NOLOAD) : {
        . = . + SIZEOF(.tbss);
        . = ALIGN(8);
        bss_end = .;
        end = .;
        __heap_start = .;
    } >RAM
    stack_end = ORIGIN(RAM) + LENGTH(RAM);
    __heap_end = stack_end - 4K;
}

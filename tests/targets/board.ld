/* The board's memory: the program from 0 on, its variables in the ram, which begins empty. */
ENTRY(begin)
SECTIONS
{
    . = 0;
    .text : { KEEP(*(.vectors)) *(.text*) *(.rodata*) }
    .ARM.exidx : { *(.ARM.exidx*) }
    . = 0x20000000;
    .bss : { *(.bss*) }
}

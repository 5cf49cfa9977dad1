/* m4.ld - where things are on the board mps2-an386 as qemu has it: code from 0 on, variables and the stack in the RAM. qemu
 * loads both from the ELF file, so nothing has to be copied at the start. */
ENTRY(reset)
MEMORY
{
    CODE (rx) : ORIGIN = 0x00000000, LENGTH = 4M
    RAM (rwx) : ORIGIN = 0x20000000, LENGTH = 4M
}
SECTIONS
{
    .text : { KEEP(*(.vectors)) *(.text*) *(.rodata*) } > CODE
    .ARM.exidx : { *(.ARM.exidx*) } > CODE
    .data : { *(.data*) } > RAM
    .bss (NOLOAD) : { *(.bss*) *(COMMON) } > RAM
    stack_low = ALIGN(8);
    stack_top = ORIGIN(RAM) + LENGTH(RAM);
}

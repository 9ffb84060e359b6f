/* A machine `virt` of qemu-system-aarch64: memory begins at 0x40000000. */
ENTRY(_start)
SECTIONS
{
    . = 0x40080000;
    .text : { *(.text.start) *(.text .text.*) }
    .rodata : { *(.rodata .rodata.*) }
    .data : ALIGN(16) { *(.data .data.*) *(.got .got.*) }
    .bss : ALIGN(16) {
        bss_start = .;
        *(.bss .bss.*) *(COMMON)
        . = ALIGN(16);
        bss_end = .;
        . += 0x10000;
        stack_end = .;
    }
    /DISCARD/ : { *(.comment) *(.note*) *(.eh_frame*) }
}

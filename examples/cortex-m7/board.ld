/* QEMU's board mps2-an500, of which as much is used as a usual Cortex-M7 has. The stack is what RAM is left over, and
 * at least 80 KB: vpindex_load and vpindex_restore need most of it. */
MEMORY {
    CODE (rx) : ORIGIN = 0x00000000, LENGTH = 1M
    RAM (rwx) : ORIGIN = 0x20000000, LENGTH = 512K
}
ENTRY(start)
SECTIONS {
    .text : {
        KEEP(*(.vectors))
        *(.text*) *(.rodata*)
    } > CODE
    .ARM.exidx : { *(.ARM.exidx*) } > CODE
    .data : {
        data_start = .;
        *(.data*)
        . = ALIGN(4);
        data_end = .;
    } > RAM AT > CODE
    data_kept = LOADADDR(.data);
    .bss (NOLOAD) : {
        bss_start = .;
        *(.bss*) *(COMMON)
        . = ALIGN(8);
        bss_end = .;
    } > RAM
    end = .;
    stack_top = ORIGIN(RAM) + LENGTH(RAM);
    ASSERT(stack_top - end >= 80K, "no room for the stack")
}

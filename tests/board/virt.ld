/* virt.ld: the image in the memory of qemu's virt machine, which starts at its first byte. A
 * position-independent one is linked for address 0: gcc's -Wl,--defsym=image=0. */
ENTRY(_start)

SECTIONS
{
    . = DEFINED(image) ? image : 0x80000000;
    .text : { *(.text.start) *(.text .text.*) }
    .rodata : { *(.rodata .rodata.* .srodata .srodata.*) }
    .rela.dyn : ALIGN(8) {
        mended_start = .;
        *(.rela .rela.*)
        mended_end = .;
    }
    .data : { *(.data .data.* .sdata .sdata.*) }
    .bss : ALIGN(8) {
        bss_start = .;
        *(.bss .bss.* .sbss .sbss.* COMMON)
        . = ALIGN(8);
        bss_end = .;
    }
    . = ALIGN(16);
    . += 64K;
    stack_end = .;
    heap_start = .;
    heap_end = . + 60M;
}

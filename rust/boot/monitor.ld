/* monitor.ld: the monitor in the 16 MiB behind the firmware's memory. Its PMP entry closes them all. */
ENTRY(_start)

monitor_start = 0x90000000;
monitor_bytes = 16M;

/* What whoever starts the machine puts there: the settings file, and a word that asks for a log. */
settings_file = monitor_start + 0xF00000;
log_wanted = settings_file + 0x80;

/* Where the call log is kept. */
log_start = monitor_start + 0x100000;
log_end = settings_file;

/* Where the firmware starts, and what it is handed: the device tree. */
firmware_start = 0x80000000;
device_tree = 0x8FE00000;

SECTIONS
{
    . = monitor_start;
    .text : {
        KEEP(*(.text.start))
        . = ALIGN(4K); /* a page each: src/memory.rs says why */
        *(.text.guarded.first)
        . = ALIGN(4K);
        *(.text.guarded.second)
        . = ALIGN(4K);
        *(.text .text.*)
    }
    .rodata : { *(.rodata .rodata.* .srodata .srodata.*) }
    .data : { *(.got .got.plt .data .data.* .sdata .sdata.*) }
    .bss : ALIGN(8) {
        bss_start = .;
        *(.bss .bss.* .sbss .sbss.* COMMON)
        . = ALIGN(8);
        bss_end = .;
    }
    . = ALIGN(16);
    . += 64K;
    stack_end = .;
    ASSERT(stack_end <= log_start, "the monitor reaches into the log")
    ASSERT(log_end - log_start == 14M, "the log isn't as long as src/virt.rs has it")
    /DISCARD/ : { *(.eh_frame .eh_frame_hdr .comment) }
}

/* SPDX-License-Identifier: Apache-2.0
 * One piece of memory from BASE on, for `-M virt`. The command line gives BASE and STACK_BYTES by --defsym. */
ENTRY(_start)
SECTIONS {
    . = BASE;
    .text : { *(.start) *(.text .text.*) }
    .rodata : { *(.rodata .rodata.*) *(.srodata .srodata.*) }
    . = ALIGN(16);
    .data : { *(.data .data.*) PROVIDE(__global_pointer$ = . + 0x800); *(.sdata .sdata.*) }
    . = ALIGN(16);
    bss_begin = .;
    .bss : { *(.sbss .sbss.*) *(.bss .bss.*) *(COMMON) }
    . = ALIGN(16);
    bss_end = .;
    stack_low = .;
    . = . + STACK_BYTES;
    stack_top = .;
    /DISCARD/ : { *(.eh_frame .eh_frame_hdr .comment .note.*) *(.riscv.attributes) }
}

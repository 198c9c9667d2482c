/* SPDX-License-Identifier: Apache-2.0
 * The two memories of the boards mps2 and mps3: code from 0 on, data from 0x20000000 on. The command line gives the bytes of each, of the
 * stack and of the heap by --defsym: MEMORY_BYTES, STACK_BYTES, HEAP_BYTES. */
ENTRY(reset)
MEMORY { CODE (rx) : ORIGIN = 0, LENGTH = MEMORY_BYTES  DATA (rwx) : ORIGIN = 0x20000000, LENGTH = MEMORY_BYTES }
SECTIONS {
    .text : { KEEP(*(.vectors)) *(.text .text.*) *(.rodata .rodata.*) . = ALIGN(8); } > CODE
    .ARM.exidx : { *(.ARM.exidx*) *(.ARM.extab*) } > CODE
    . = ALIGN(8);
    data_from = LOADADDR(.data);
    .data : { data_begin = .; *(.data .data.* .data.rel.ro .data.rel.ro.*) . = ALIGN(8); data_end = .; } > DATA AT > CODE
    .bss (NOLOAD) : { bss_begin = .; *(.bss .bss.*) *(COMMON) . = ALIGN(16); bss_end = .; } > DATA
    .stack (NOLOAD) : { stack_low = .; . = . + STACK_BYTES; stack_top = .; } > DATA
    .heap (NOLOAD) : { . = ALIGN(16); heap_low = .; . = . + HEAP_BYTES; heap_top = .; } > DATA
    /DISCARD/ : { *(.eh_frame .eh_frame_hdr .comment .note.*) }
}

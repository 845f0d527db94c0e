/* SPDX-License-Identifier: MIT OR Apache-2.0 */
/* The nRF51 of a micro:bit: 256 KB of flash and 16 KB of RAM, of which the stack has the rest. */
MEMORY {
    FLASH (rx) : ORIGIN = 0x00000000, LENGTH = 256K
    RAM (rwx) : ORIGIN = 0x20000000, LENGTH = 16K
}
ENTRY(reset)
SECTIONS {
    .text : { KEEP(*(.vectors)) *(.text*) *(.rodata*) } > FLASH
    .ARM.exidx : { *(.ARM.exidx*) . = ALIGN(8); data_from = .; } > FLASH
    .data : AT(data_from) { data_to = .; *(.data*) . = ALIGN(8); data_end = .; } > RAM
    .bss (NOLOAD) : { *(.bss*) *(COMMON) . = ALIGN(8); bss_end = .; } > RAM
    stack_top = ORIGIN(RAM) + LENGTH(RAM);
    /DISCARD/ : { *(.comment) }
}

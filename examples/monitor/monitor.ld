/* The monitor's image: code, constants, tables that stand still after start, then all that changes. Each part begins on
 * a page of its own, so that paging.c can protect it by itself. */
#include "layout.h"

ENTRY(start)
PHDRS
{
    code PT_LOAD FLAGS(5);
    constants PT_LOAD FLAGS(4);
    still PT_LOAD FLAGS(6);
    data PT_LOAD FLAGS(6);
}
SECTIONS
{
    . = MONITOR_START;
    monitor_start = .;
    .text : { KEEP(*(.multiboot)) *(.text .text.*) } :code
    . = ALIGN(PAGE);
    monitor_code_end = .;
    .rodata : { *(.rodata .rodata.*) } :constants
    . = ALIGN(PAGE);
    .still : { *(.bss.still) } :still
    . = ALIGN(PAGE);
    monitor_still_end = .;
    .data : { *(.data .data.*) } :data
    .bss : { *(.bss .bss.*) *(COMMON) } :data
    . = ALIGN(PAGE);
    monitor_end = .;
    ASSERT(monitor_end <= LARGE_PAGE, "the monitor must lie below 2 MiB")
    /DISCARD/ : { *(.comment) *(.note*) *(.eh_frame*) }
}

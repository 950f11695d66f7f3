/* A measuring program: code, constants and data in segments of their own, from BASE on; code and constants filled up to
 * multiples of FILL_TO (both are given to the linker).
 *
 * The data start inside a page, not at its border, and .bss ends inside one: what lies in front of and behind them in
 * their pages is the loader's to clear. Each part has a byte at least, so that no segment is empty. */
ENTRY(start)
PHDRS
{
    text PT_LOAD FLAGS(5);
    constants PT_LOAD FLAGS(4);
    data PT_LOAD FLAGS(6);
}
SECTIONS
{
    . = BASE;
    text_start = .;
    .text : { *(.text .text.*) . = ALIGN(FILL_TO); } :text =0xcccccccc
    text_end = .;
    . = ALIGN(0x1000);
    constants_start = .;
    .dynamics : { *(.dynamic) *(.dynsym) *(.dynstr) *(.hash) *(.gnu.hash) } :constants
    .rodata : { *(.rodata .rodata.*) BYTE(0xbb) . = ALIGN(FILL_TO); } :constants =0xbbbbbbbb
    constants_end = .;
    .relocations : { *(.rela.*) *(.got .got.plt .igot.plt) *(.iplt) } :constants
    ASSERT(SIZEOF(.relocations) == 0, "a measuring program must need no relocation")
    . = ALIGN(0x1000) + 0x340;
    data_start = .;
    .data : { *(.data .data.*) BYTE(0xdd) } :data
    data_end = .;
    .bss : { *(.bss .bss.*) } :data
    bss_end = .;
    /DISCARD/ : { *(.comment) *(.note*) *(.eh_frame*) }
}

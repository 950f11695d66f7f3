/* From the boot loader's 32-bit protected mode (multiboot 1) to 64-bit C.
 *
 * Assumes nothing of the boot loader but what multiboot promises: flat segments, paging off, the image in place. Turns
 * on what the protections rest on: NX (no-execute pages) and WP (read-only pages bind the monitor too). The page tables
 * here only carry the processor over into 64-bit mode; paging.c replaces them.
 */
#include "layout.h"

#define MULTIBOOT_MAGIC 0x1badb002
#define CR0_PROTECTION_ON 0x80010023 /* PG, WP, NE, MP, PE */
#define CR0_EMULATE_FLOAT 0x4
#define CR4_FEATURES 0x620           /* PAE, OSFXSR and OSXMMEXCPT: the compiled library uses vector registers */
#define EFER 0xc0000080
#define EFER_LONG_MODE_AND_NX 0x900
#define PRESENT_WRITABLE 0x3
#define LARGE 0x80

    .section .multiboot, "ax"
    .align 4
    .long MULTIBOOT_MAGIC, 0, -MULTIBOOT_MAGIC

    .text
    .code32
    .globl start
start:
    cli
    cld
    movl $monitor_stack_end, %esp
    rdtsc
    movl %eax, cycles_at_start
    movl %edx, cycles_at_start + 4
    call build_boot_tables
    movl $boot_top, %eax
    movl %eax, %cr3
    movl %cr4, %eax
    orl $CR4_FEATURES, %eax
    movl %eax, %cr4
    movl $EFER, %ecx
    rdmsr
    orl $EFER_LONG_MODE_AND_NX, %eax
    wrmsr
    movl %cr0, %eax
    andl $~CR0_EMULATE_FLOAT, %eax
    orl $CR0_PROTECTION_ON, %eax
    movl %eax, %cr0
    lgdt boot_descriptors_pointer
    ljmp $MONITOR_CODE_SELECTOR, $start64

/* The first 32 MiB as they are, in large pages. */
build_boot_tables:
    movl $boot_gigabytes + PRESENT_WRITABLE, boot_top
    movl $boot_regions + PRESENT_WRITABLE, boot_gigabytes
    movl $boot_regions, %edi
    movl $PRESENT_WRITABLE + LARGE, %eax
    movl $16, %ecx
1:  movl %eax, (%edi)
    addl $LARGE_PAGE, %eax
    addl $8, %edi
    loop 1b
    ret

    .code64
start64:
    movl $MONITOR_DATA_SELECTOR, %eax
    movl %eax, %ds
    movl %eax, %es
    movl %eax, %ss
    movabs $monitor_stack_end, %rsp
    call monitor_main
1:  hlt
    jmp 1b

    .section .rodata
    .align 8
boot_descriptors:
    .quad 0
    .quad 0x00af9b000000ffff /* 64-bit code */
    .quad 0x00cf93000000ffff /* data */
boot_descriptors_pointer:
    .word boot_descriptors_pointer - boot_descriptors - 1
    .long boot_descriptors

    .bss
    .align PAGE
boot_top:
    .skip PAGE
boot_gigabytes:
    .skip PAGE
boot_regions:
    .skip PAGE
    .globl monitor_stack
monitor_stack:
    .skip 0x4000
monitor_stack_end:
    .globl cycles_at_start
cycles_at_start:
    .quad 0

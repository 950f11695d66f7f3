/* Asks for a print that runs over the end of its pages, which the monitor must decline; then reads the first byte behind
 * them, which is in the window but not the program's; must be stopped at `faulting`. */
    .text
    .globl start, faulting
start:
    lea behind_pages(%rip), %rbx
    mov $1, %eax
    lea -8(%rbx), %rdi
    mov $16, %esi
    int $0x80
    mov $2, %edi
    test %rax, %rax
    jnz leave
faulting:
    mov (%rbx), %dil
leave:
    xor %eax, %eax
    int $0x80

    .bss
    .skip 0x1000 - 0x341 /* to the end of the data's page: they start at 340 hex, and have one byte */
    .globl behind_pages
behind_pages:

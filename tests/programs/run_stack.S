/* Puts instructions on its stack that would end it with status 1, and jumps there; must be stopped at the first of them. */
    .text
    .globl start
start:
    push code(%rip)
    push code_start(%rip)
    jmp *%rsp

    .section .rodata
code_start:
    xor %eax, %eax
    mov $1, %edi
    .byte 0x90
code:
    int $0x80
    .skip 6, 0x90

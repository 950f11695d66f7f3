/* Jumps into its data, where instructions lie that would end it with status 1; must be stopped at `faulting`. */
    .text
    .globl start, faulting
start:
    lea faulting(%rip), %rbx
    jmp *%rbx

    .data
faulting:
    xor %eax, %eax
    mov $1, %edi
    int $0x80

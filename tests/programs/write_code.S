/* Writes to its own code; must be stopped at `faulting`, before a byte of it changed. */
    .text
    .globl start, faulting
start:
    lea start(%rip), %rbx
faulting:
    movb $0x90, (%rbx)
    xor %eax, %eax
    mov $1, %edi
    int $0x80

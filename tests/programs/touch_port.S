/* Writes to a port of the disk controller; must be stopped at `faulting` by a general protection fault. */
    .text
    .globl start, faulting
start:
    mov $0x1f7, %edx
    xor %eax, %eax
faulting:
    out %al, %dx
    xor %eax, %eax
    mov $1, %edi
    int $0x80

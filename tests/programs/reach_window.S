/* Reads the other window, where the program before it ran; must be stopped at `faulting`. */
#include "../../examples/monitor/layout.h"
    .text
    .globl start, faulting
start:
    mov $WINDOW_B, %ebx
faulting:
    mov (%rbx), %rdi
    xor %eax, %eax
    int $0x80

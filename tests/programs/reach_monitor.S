/* Asks the monitor to print the monitor's own memory, which it must decline, then reads it; must be stopped at `faulting`. */
#include "../../examples/monitor/layout.h"
    .text
    .globl start, faulting
start:
    mov $1, %eax
    mov $MONITOR_START, %edi
    mov $16, %esi
    int $0x80
    mov $2, %edi
    test %rax, %rax
    jnz leave
    mov $MONITOR_START, %ebx
faulting:
    mov (%rbx), %rdi
leave:
    xor %eax, %eax
    int $0x80

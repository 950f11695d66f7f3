/* The way into a program and the two ways back: system calls and faults.
 *
 * enter_program(entry, stack) starts a program on privilege level 3 with all registers clear and returns when
 * leave_program() is called, which happens from within an interrupt of that program (traps.c).
 */
#include "layout.h"

#define FLAGS_INTERRUPTS_OFF 0x2

    .text
    .globl enter_program
enter_program:
    push %rbx
    push %rbp
    push %r12
    push %r13
    push %r14
    push %r15
    mov %rsp, monitor_stack_pointer(%rip)
    push $PROGRAM_DATA_SELECTOR
    push %rsi
    push $FLAGS_INTERRUPTS_OFF
    push $PROGRAM_CODE_SELECTOR
    push %rdi
    fxrstor clear_registers(%rip)
    xor %eax, %eax
    xor %ebx, %ebx
    xor %ecx, %ecx
    xor %edx, %edx
    xor %esi, %esi
    xor %edi, %edi
    xor %ebp, %ebp
    xor %r8d, %r8d
    xor %r9d, %r9d
    xor %r10d, %r10d
    xor %r11d, %r11d
    xor %r12d, %r12d
    xor %r13d, %r13d
    xor %r14d, %r14d
    xor %r15d, %r15d
    iretq

    .globl leave_program
leave_program:
    mov monitor_stack_pointer(%rip), %rsp
    pop %r15
    pop %r14
    pop %r13
    pop %r12
    pop %rbp
    pop %rbx
    ret

/* One entry per vector, so that the handler knows which it was; the processor pushes an error code for some only. */
    .macro interrupt_entry vector
interrupt_\vector:
    .if !((\vector == 8) || ((\vector >= 10) && (\vector <= 14)) || (\vector == 17) || (\vector == 21) || (\vector == 29) || (\vector == 30))
    push $0
    .endif
    push $\vector
    jmp interrupt_common
    .endm

    .altmacro
    .set vector, 0
    .rept 32
    interrupt_entry %vector
    .set vector, vector + 1
    .endr
    .globl system_call_entry
system_call_entry:
    push $0
    push $SYSTEM_CALL_VECTOR
interrupt_common:
    push %rax
    push %rbx
    push %rcx
    push %rdx
    push %rsi
    push %rdi
    push %rbp
    push %r8
    push %r9
    push %r10
    push %r11
    push %r12
    push %r13
    push %r14
    push %r15
    cld
    mov %rsp, %rdi
    call on_interrupt
    pop %r15
    pop %r14
    pop %r13
    pop %r12
    pop %r11
    pop %r10
    pop %r9
    pop %r8
    pop %rbp
    pop %rdi
    pop %rsi
    pop %rdx
    pop %rcx
    pop %rbx
    pop %rax
    add $16, %rsp /* vector and error code */
    iretq

    .section .rodata
    .align 16
clear_registers: /* floating point and vectors, as after reset: all exceptions masked */
    .word 0x37f
    .skip 22
    .long 0x1f80
    .skip 484
    .globl interrupt_entries
interrupt_entries:
    .macro entry_address vector
    .quad interrupt_\vector
    .endm
    .set vector, 0
    .rept 32
    entry_address %vector
    .set vector, vector + 1
    .endr

    .bss
    .align 8
monitor_stack_pointer:
    .quad 0

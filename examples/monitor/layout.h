/* Where everything lies in memory, for C, for the assembler and for the linker script (numbers only).
 *
 * Virtual addresses equal physical ones. What is not listed here is not mapped at all. The machine needs 32 MiB.
 */
#ifndef LAYOUT_H
#define LAYOUT_H

#define PAGE 0x1000
#define LARGE_PAGE 0x200000 /* what one page table spans; each region below has one of its own */

#define MONITOR_START 0x100000 /* the monitor: code, constants, tables, data; below 2 MiB */
#define CARD_BUFFER 0x400000   /* the card's file as it was read: never executable, never seen by a program */
#define CARD_BUFFER_LENGTH LARGE_PAGE
#define WINDOW_A 0x1000000 /* where programs are loaded; each card says for which of the two it is */
#define WINDOW_B 0x1200000
#define WINDOW_LENGTH 0x10000
#define STACK 0x1400000 /* the program's stack, beside the windows */
#define STACK_LENGTH 0x4000

#define MONITOR_CODE_SELECTOR 0x08
#define MONITOR_DATA_SELECTOR 0x10
#define PROGRAM_DATA_SELECTOR 0x1b /* with privilege level 3 in the two low bits */
#define PROGRAM_CODE_SELECTOR 0x23
#define TASK_SELECTOR 0x28

#define SYSTEM_CALL_VECTOR 0x80

#endif

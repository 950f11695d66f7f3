/* Two calls of the system, for programs without a C library on Linux on x86-64. */
#ifndef SYSTEM_H
#define SYSTEM_H

static long call(long number, long a, long b, long c)
{
    long answer;
    __asm__ volatile("syscall" : "=a"(answer) : "a"(number), "D"(a), "S"(b), "d"(c) : "rcx", "r11", "memory");
    return answer;
}

static void write_out(const char *text, unsigned long length)
{
    call(1, 1, (long)text, (long)length);
}

__attribute__((noreturn)) static void end(int status)
{
    for (;;)
        call(60, status, 0, 0);
}

#endif

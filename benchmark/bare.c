// The start of a program, the memory functions and the output, over the kernel alone.
#include "bare.h"

long system_call(long number, long a, long b, long c, long d)
{
    long answer;
    register long fourth __asm__("r10") = d;
    __asm__ volatile("syscall" : "=a"(answer) : "a"(number), "D"(a), "S"(b), "d"(c), "r"(fourth) : "rcx", "r11", "memory");
    return answer;
}

_Noreturn void stop(int status)
{
    for (;;)
        system_call(60, status, 0, 0, 0);
}

__attribute__((naked, used)) void _start(void)
{
    __asm__("mov (%rsp), %rdi; lea 8(%rsp), %rsi; and $-16, %rsp; call begin");
}

__attribute__((used)) _Noreturn void begin(long words, char **word)
{
    stop(program((int)words, word));
}

// All the gateways call these two, as a C library would have them: long pieces first, and the rest by two pieces that overlap.
typedef struct { uint64_t half[2]; } __attribute__((packed)) sixteen;
typedef struct { uint64_t number; } __attribute__((packed)) eight;
typedef struct { uint32_t number; } __attribute__((packed)) four;

void *memcpy(void *restrict to, const void *restrict from, size_t n)
{
    uint8_t *t = to;
    const uint8_t *f = from;
    if (n >= 16) {
        size_t i = 0;
        for (; i + 16 < n; i += 16)
            *(sixteen *)(t + i) = *(const sixteen *)(f + i);
        *(sixteen *)(t + n - 16) = *(const sixteen *)(f + n - 16);
    } else if (n >= 8) {
        eight first = *(const eight *)f, last = *(const eight *)(f + n - 8);
        *(eight *)t = first;
        *(eight *)(t + n - 8) = last;
    } else if (n >= 4) {
        four first = *(const four *)f, last = *(const four *)(f + n - 4);
        *(four *)t = first;
        *(four *)(t + n - 4) = last;
    } else if (n) {
        uint8_t first = f[0], middle = f[n / 2], last = f[n - 1];
        t[0] = first;
        t[n / 2] = middle;
        t[n - 1] = last;
    }
    return to;
}

void *memset(void *to, int byte, size_t n)
{
    uint8_t *t = to;
    uint64_t word = 0x0101010101010101u * (uint8_t)byte;
    if (n >= 16) {
        sixteen piece = {{word, word}};
        for (size_t i = 0; i + 16 < n; i += 16)
            *(sixteen *)(t + i) = piece;
        *(sixteen *)(t + n - 16) = piece;
        return to;
    }
    for (size_t i = 0; i < n; i++)
        t[i] = (uint8_t)byte;
    return to;
}

void print(const char *text)
{
    size_t n = 0;
    while (text[n])
        n++;
    system_call(1, 1, (long)text, (long)n, 0);
}

void print_number(uint64_t n)
{
    char text[24], *at = text + 23;
    *at = 0;
    do
        *--at = (char)('0' + n % 10);
    while (n /= 10);
    print(at);
}

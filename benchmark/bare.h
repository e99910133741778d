// What the programs here need of a C library. There is none: a static program without one counts the same everywhere.
#pragma once
#include <stddef.h>
#include <stdint.h>
typedef __UINT16_TYPE__ uint16_t;
#define offsetof(type, member) __builtin_offsetof(type, member)

void *memcpy(void *to, const void *from, size_t n);
void *memset(void *to, int byte, size_t n);

void print(const char *text);
void print_number(uint64_t n);
_Noreturn void stop(int status);
long system_call(long number, long a, long b, long c, long d);

int program(int words, char **word);

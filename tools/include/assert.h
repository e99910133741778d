/* The assertion, for a compiler that comes without headers: tools/run-c. */
#pragma once
void __assert_fail(const char *test, const char *file, unsigned line, const char *function) __attribute__((noreturn));
#ifdef NDEBUG
#define assert(test) ((void)0)
#else
#define assert(test) ((test) ? (void)0 : __assert_fail(#test, __FILE__, __LINE__, __func__))
#endif

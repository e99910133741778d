// The gateway of an3333.c with a copy of a signal by one word of 64 bits, as one would write it today.
#define CALL(name) word64_##name
#include "copy_word.h"
#include "an3333.c"

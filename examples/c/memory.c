/* memcpy, memset and memmove with records. The compiler calls the first two by itself, for structures, and their names
 * are the C library's. Each copies at most WCET_MOST bytes in a call: give MOST in the Makefile another number where a
 * program copies more. */
#include "wcet.h"

#ifndef WCET_MOST
#define WCET_MOST 64
#endif

void *memcpy(void *to, const void *from, unsigned size)
{
    unsigned char *into = to;
    const unsigned char *out = from;
    for (unsigned i = 0; i < size; i++) {
        WCET_LOOP(WCET_MOST);
        into[i] = out[i];
    }
    return to;
}

void *memset(void *to, int byte, unsigned size)
{
    unsigned char *into = to;
    for (unsigned i = 0; i < size; i++) {
        WCET_LOOP(WCET_MOST);
        into[i] = byte;
    }
    return to;
}

/* The bytes may overlap: they are copied from the end that the other place doesn't reach. */
void *memmove(void *to, const void *from, unsigned size)
{
    unsigned char *into = to;
    const unsigned char *out = from;
    if (into <= out)
        return memcpy(to, from, size);
    for (unsigned i = size; i > 0; i--) {
        WCET_LOOP(WCET_MOST);
        into[i - 1] = out[i - 1];
    }
    return to;
}

/* The functions of memory.c, called by name and by the compiler for a structure. The result is how many answers are wrong. */
#include "wcet.h"

#define SIZE 8

void *memcpy(void *to, const void *from, unsigned size);
void *memset(void *to, int byte, unsigned size);
void *memmove(void *to, const void *from, unsigned size);

struct eight {
    unsigned char bytes[SIZE];
};

static struct eight source = {{1, 2, 3, 4, 5, 6, 7, 8}};
static struct eight copy;

static int differs(const unsigned char *bytes, const char *wanted)
{
    for (int i = 0; i < SIZE; i++) {
        WCET_LOOP(SIZE);
        if (bytes[i] != wanted[i])
            return 1;
    }
    return 0;
}

static void assign(struct eight *to, const struct eight *from)
{
    *to = *from;
}

int task(void)
{
    int wrong = memcpy(copy.bytes, source.bytes, SIZE) != copy.bytes;
    wrong += differs(copy.bytes, "\1\2\3\4\5\6\7\10");
    wrong += memset(copy.bytes + 1, 0x109, 3) != copy.bytes + 1;
    wrong += differs(copy.bytes, "\1\11\11\11\5\6\7\10");
    assign(&copy, &source);
    wrong += memmove(copy.bytes + 2, copy.bytes, 5) != copy.bytes + 2;
    wrong += differs(copy.bytes, "\1\2\1\2\3\4\5\10");
    wrong += memmove(copy.bytes, copy.bytes + 2, 5) != copy.bytes;
    wrong += differs(copy.bytes, "\1\2\3\4\5\4\5\10");
    memmove(copy.bytes, source.bytes, 0);
    return wrong + differs(copy.bytes, "\1\2\3\4\5\4\5\10");
}

/* Looks for a word in a text, and returns where it begins. */
#include "wcet.h"

#define TEXT 19
#define WORD 3

int length(const char *text);

const char text[] = "the quick brown fox";
static const char word[] = "fox";

/* Whether the text begins with the word. */
static int begins(const char *here, const char *with)
{
    for (int i = 0; with[i] != '\0'; i++) {
        WCET_LOOP(WORD);
        if (here[i] != with[i])
            return 0;
    }
    return 1;
}

int task(void)
{
    int last = length(text) - WORD;
    for (int at = 0; at <= last; at++) {
        WCET_LOOP(TEXT - WORD + 1);
        if (begins(text + at, word))
            return at;
    }
    return -1;
}

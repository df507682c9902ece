/* A function with a loop, called in two places: a compiler that may inline it copies the loop, and its record. */
#include "wcet.h"

static int sum(const int *list, int length)
{
    int all = 0;
    for (int i = 0; i < length; i++) {
        WCET_LOOP(8);
        all += list[i];
    }
    return all;
}

int task(const int *list, int length)
{
    return sum(list, length) - sum(list + 8, 8);
}

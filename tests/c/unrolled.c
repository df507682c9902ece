/* A loop of three turns: a compiler that may unroll it copies its body, and its record. */
#include "wcet.h"

int task(const int *list)
{
    int all = 0;
    for (int i = 0; i < 3; i++) {
        WCET_LOOP(3);
        all += list[i];
    }
    return all;
}

/* A loop that is always left in its first turn. The compiler sees it, and only the outer loop is left, with both records. */
#include "wcet.h"

#define RETRIES 0

int task(const int *list)
{
    int all = 0;
    for (int i = 0; i < 100; i++) {
        WCET_LOOP(100);
        for (int tries = 0; tries < 5; tries++) {
            WCET_LOOP(5);
            all += list[i];
            if (tries >= RETRIES)
                break;
        }
    }
    return all;
}

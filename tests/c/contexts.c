/* Twelve functions of which each calls the next one twice: 4,095 chains of calls. */
#include "wcet.h"

#define TWICE(name, next)              \
    static int name(int number)        \
    {                                  \
        return next(next(number));      \
    }

static int last(int number)
{
    return number + 1;
}

TWICE(second, last)
TWICE(third, second)
TWICE(fourth, third)
TWICE(fifth, fourth)
TWICE(sixth, fifth)
TWICE(seventh, sixth)
TWICE(eighth, seventh)
TWICE(ninth, eighth)
TWICE(tenth, ninth)
TWICE(eleventh, tenth)

int task(void)
{
    return eleventh(eleventh(0)) == 2048 ? 0 : 1;
}

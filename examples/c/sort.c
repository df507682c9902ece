/* Sorts nine numbers by insertion and returns the median. They stand the greatest first, so that each one moves all the
 * way. */
#include "wcet.h"

#define NUMBERS 9

static int numbers[NUMBERS] = {9, 8, 7, 6, 5, 4, 3, 2, 1};

static void sort(int *list, int length)
{
    for (int next = 1; next < length; next++) {
        WCET_LOOP(NUMBERS - 1);
        int number = list[next];
        int place = next;
        while (place > 0 && list[place - 1] > number) {
            WCET_LOOP(NUMBERS - 1);
            list[place] = list[place - 1];
            place--;
        }
        list[place] = number;
    }
}

int task(void)
{
    sort(numbers, NUMBERS);
    return numbers[NUMBERS / 2];
}

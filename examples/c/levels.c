/* Two sensors: the mean of the last samples of each, kept within limits. */
#include "wcet.h"

#define SAMPLES 5

static const int warm[SAMPLES] = {210, 215, 230, 225, 220};
static const int cold[SAMPLES] = {-40, -10, 5, 10, -15};

static int limited(int value, int least, int most)
{
    if (value < least)
        return least;
    if (value > most)
        return most;
    return value;
}

static int mean(const int *samples)
{
    int sum = 0;
    for (int i = 0; i < SAMPLES; i++) {
        WCET_LOOP(SAMPLES);
        sum += limited(samples[i], 0, 255);
    }
    return sum / SAMPLES;
}

static int level(const int *samples)
{
    return limited(mean(samples), 10, 200);
}

int task(void)
{
    return level(warm) + level(cold);
}

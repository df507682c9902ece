/* The lights of a pedestrian crossing: a state machine that calls the function of its state by a table. It counts how often
 * the walkers get green. */
#include "wcet.h"

#define EVENTS 12

enum event { TICK, BUTTON };
enum state { CARS, YELLOW, WALKERS };

static const unsigned char events[EVENTS] = {
    TICK, BUTTON, TICK, TICK, BUTTON, TICK, TICK, BUTTON, TICK, TICK, TICK, TICK,
};

static int greens;
static int ticks;

static int cars(int event)
{
    return event == BUTTON ? YELLOW : CARS;
}

static int yellow(int event)
{
    if (event != TICK)
        return YELLOW;
    greens++;
    ticks = 0;
    return WALKERS;
}

static int walkers(int event)
{
    ticks += event == TICK;
    return ticks == 2 ? CARS : WALKERS;
}

static int (*const states[])(int) = {cars, yellow, walkers};

int task(void)
{
    int state = CARS;
    for (int i = 0; i < EVENTS; i++) {
        WCET_LOOP(EVENTS);
        state = WCET_CALL(states[state], events[i], cars, yellow, walkers);
    }
    return greens;
}

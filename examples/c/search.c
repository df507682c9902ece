/* The temperature of a thermistor: each reading is looked for in a table by bisection, and what lies between two entries
 * is a straight line. The task returns how often a heater would be switched. */
#include "wcet.h"

#define ENTRIES 33
#define READINGS 16

/* 33 entries are 32 gaps, which 5 steps halve down to one. */
#define STEPS 5

/* Readings rise by the table, and temperatures, in tenths of a degree, fall. */
struct entry {
    unsigned short reading;
    short tenths;
};

static const struct entry table[ENTRIES] = {
    {102, 1250}, {115, 1200}, {130, 1150}, {148, 1100}, {168, 1050}, {191, 1000}, {218, 950}, {250, 900},
    {287, 850}, {330, 800}, {380, 750}, {438, 700}, {505, 650}, {582, 600}, {670, 550}, {770, 500},
    {883, 450}, {1008, 400}, {1147, 350}, {1298, 300}, {1461, 250}, {1634, 200}, {1815, 150}, {2001, 100},
    {2189, 50}, {2374, 0}, {2553, -50}, {2722, -100}, {2879, -150}, {3021, -200}, {3147, -250}, {3257, -300},
    {3351, -350},
};

static const unsigned short readings[READINGS] = {
    1461, 1500, 1300, 1290, 1150, 1000, 900, 1020, 1200, 1400, 1640, 1700, 1500, 1100, 4000, 50,
};

/* What the control keeps: whether it heats, and how often that changed. */
struct control {
    int low;
    int high;
    int heats;
    int changes;
};

static struct control control = {230, 330, 0, 0};

static int clamped(int reading)
{
    if (reading < table[0].reading)
        return table[0].reading;
    if (reading > table[ENTRIES - 1].reading)
        return table[ENTRIES - 1].reading;
    return reading;
}

/* The last gap that begins at or below a reading of the table's range. */
static int gap_of(int reading)
{
    int low = 0;
    int high = ENTRIES - 1;
    while (high - low > 1) {
        WCET_LOOP(STEPS);
        int middle = (low + high) >> 1;
        if (WCET_LOAD(table[middle].reading, table) <= reading)
            low = middle;
        else
            high = middle;
    }
    return low;
}

/* The temperature at a reading, on the line between the ends of its gap. */
static int tenths_at(int reading)
{
    int inside = clamped(reading);
    int gap = gap_of(inside);
    const struct entry *from = &table[gap];
    const struct entry *to = from + 1;
    int width = to->reading - from->reading;
    int fall = from->tenths - to->tenths;
    return from->tenths - fall * (inside - from->reading) / width;
}

/* Switches the heater on below the low limit, and off above the high one. */
static void decide(struct control *heater, int tenths)
{
    int wanted = heater->heats;
    if (tenths < heater->low)
        wanted = 1;
    else if (tenths > heater->high)
        wanted = 0;
    if (wanted != heater->heats) {
        heater->heats = wanted;
        heater->changes++;
    }
}

/* Whether the readings of the table rise, as the search needs. */
static int rises(void)
{
    for (int i = 1; i < ENTRIES; i++) {
        WCET_LOOP(ENTRIES - 1);
        if (table[i - 1].reading >= table[i].reading)
            return 0;
    }
    return 1;
}

int task(void)
{
    if (!rises())
        return -1;
    for (int i = 0; i < READINGS; i++) {
        WCET_LOOP(READINGS);
        decide(&control, tenths_at(readings[i]));
    }
    return control.changes;
}

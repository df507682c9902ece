/* Causes of a bound that is far above the run, each as one writes it first and then as the guide mends it. */
#include "wcet.h"

#define ITEMS 32
#define ROOM 8

static int room[ROOM];
static int used;
static int sum;

/* What is dear: all of the room is added up. */
static void empty(void)
{
    for (int i = 0; i < ROOM; i++) {
        WCET_LOOP(ROOM);
        sum += room[i];
    }
    used = 0;
}

static void put(int item)
{
    WCET_STORE(room[used], room, item);
    used++;
}

/* One call in eight empties the room, and each is charged for it. */
static void put_or_empty(int item)
{
    put(item);
    if (used == ROOM)
        empty();
}

void once(void)
{
    for (int i = 0; i < ITEMS; i++) {
        WCET_LOOP(ITEMS);
        put_or_empty(i);
    }
}

/* The loop tells how often the room is emptied. */
void once_mended(void)
{
    for (int full = 0; full < ITEMS / ROOM; full++) {
        WCET_LOOP(ITEMS / ROOM);
        for (int i = 0; i < ROOM; i++) {
            WCET_LOOP(ROOM);
            put(full * ROOM + i);
        }
        empty();
    }
}

/* The inner loop tests at its end: its header is visited twice, and the record allows three times. */
void rotated(void)
{
    for (int i = 0; i < ITEMS; i++) {
        WCET_LOOP(ITEMS);
        int half = 0;
        do {
            WCET_LOOP(2);
            sum += i ^ half;
            half++;
        } while (half < 2);
    }
}

/* One turn less, after a trace has shown `visited 2 of 3`. */
void rotated_mended(void)
{
    for (int i = 0; i < ITEMS; i++) {
        WCET_LOOP(ITEMS);
        int half = 0;
        do {
            WCET_LOOP(1);
            sum += i ^ half;
            half++;
        } while (half < 2);
    }
}

static void count(void)
{
    for (int i = 0; i < ROOM; i++) {
        WCET_LOOP(ROOM);
        sum++;
    }
}

/* Two tests of one value: a run goes into one arm, and both are charged. */
void arms(int empties)
{
    for (int i = 0; i < ITEMS; i++) {
        WCET_LOOP(ITEMS);
        if (empties)
            empty();
        sum ^= i;
        if (!empties)
            count();
    }
}

/* One test, of which the dearer arm is charged. */
void arms_mended(int empties)
{
    for (int i = 0; i < ITEMS; i++) {
        WCET_LOOP(ITEMS);
        if (empties) {
            empty();
            sum ^= i;
        } else {
            sum ^= i;
            count();
        }
    }
}

int task(void)
{
    once();
    once_mended();
    rotated();
    rotated_mended();
    arms(1);
    arms_mended(1);
    return 0;
}

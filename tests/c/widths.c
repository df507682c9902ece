/* Loads and stores of each width, and calls with one target and with eight, with and without an argument, of each width. It
 * returns how many of them are wrong. */
#include "wcet.h"

static signed char tiny[4];
static unsigned char bytes[4];
static short halves[4];
static const unsigned short *const places[2] = {(const unsigned short *)halves, (const unsigned short *)halves + 3};
static int words[4];
static struct { int first; unsigned short second[3]; } record;

static int wrong(int gave, int wanted)
{
    return gave != wanted;
}

static int accesses(int at)
{
    WCET_STORE(tiny[at], tiny, -3);
    WCET_STORE(bytes[at], bytes, 0xFD);
    WCET_STORE(halves[at], halves, -30000);
    WCET_STORE(words[at], words, -2000000000);
    WCET_STORE(record.second[at - 1], record.second, 0xFEDC);
    return wrong(WCET_LOAD(tiny[at], tiny), -3) + wrong(WCET_LOAD(bytes[at], bytes), 0xFD) +
           wrong(WCET_LOAD(halves[at], halves), -30000) + wrong(WCET_LOAD(words[at], words), -2000000000) +
           wrong(WCET_LOAD(record.second[at - 1], record.second), 0xFEDC) +
           wrong(*WCET_LOAD(places[at - 2], places), (unsigned short)-30000) +
           wrong(tiny[at] + bytes[at], 250) + wrong(halves[at], -30000) + wrong(record.second[at - 1], 0xFEDC);
}

/* Each changes its argument's place on the stack too, as a callee may. */
#define ADDING(name, number)            \
    static int name(volatile int value) \
    {                                   \
        value += number;                \
        return value;                   \
    }
ADDING(one, 1)
ADDING(two, 2)
ADDING(three, 3)
ADDING(four, 4)
ADDING(five, 5)
ADDING(six, 6)
ADDING(seven, 7)
ADDING(eight, 8)

static int (*const adding[])(int) = {one, two, three, four, five, six, seven, eight};

static int calls(int from)
{
    int sum = WCET_CALL(adding[0], from, one);
    for (int i = 0; i < 8; i++) {
        WCET_LOOP(8);
        sum = WCET_CALL(adding[i], sum, one, two, three, four, five, six, seven, eight);
    }
    return wrong(sum, from + 37);
}

/* Functions that take nothing, that give nothing, and that take and give less than a word or an address. */
static int counted;

static void count(void)
{
    counted++;
}

static int count_twice(void)
{
    counted += 2;
    return counted;
}

static signed char half(signed char value)
{
    return value / 2;
}

static const short *next(const short *place)
{
    return place + 1;
}

/* A pointer to constants takes an array too, and a pointer to what may change. */
static int last(const char *text)
{
    return text[2];
}

static int greater(const int *two)
{
    return two[0] > two[1] ? two[0] : two[1];
}

static int (*const lasts[])(const char *) = {last};
static int (*const greaters[])(const int *) = {greater};

static int constants(int value)
{
    int two[2] = {value, 3};
    return wrong(WCET_CALL(lasts[0], "abc", last), 'c') + wrong(WCET_CALL(greaters[0], two, greater), value) +
           wrong(WCET_CALL(greaters[0], &two[0], greater), value);
}

static void (*const counts[])(void) = {count};
static int (*const double_counts[])(void) = {count_twice};
static signed char (*const halves_of[])(signed char) = {half};
static const short *(*const nexts[])(const short *) = {next};

static int others(int value)
{
    const short *first = halves;
    WCET_CALL0(counts[0], count);
    return wrong(WCET_CALL0(double_counts[0], count_twice), 3) +
           wrong(WCET_CALL(halves_of[0], (signed char)value, half), -28) +
           wrong(WCET_CALL(nexts[0], first, next) == halves + 1, 1);
}

int task(void)
{
    return accesses(3) + calls(5) + others(200) + constants(9);
}

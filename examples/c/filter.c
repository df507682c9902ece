/* A filter of samples in fixed point: two sections of second order, then a weighted mean of the last eight results. Each
 * result is kept within 16 bits, and the task returns how often one had to be cut off. */
#include "wcet.h"

#define SAMPLES 24
#define SECTIONS 2
#define TAPS 8

/* Numbers of the filter have 14 bits behind the point. */
#define POINT 14
#define HALF (1 << (POINT - 1))
#define GREATEST 32767
#define LEAST (-32768)

/* The factors of a section, and its last two inputs and outputs. */
struct section {
    short forward[3];
    short backward[2];
    short inputs[2];
    short outputs[2];
};

static struct section sections[SECTIONS] = {
    {{4096, 8192, 4096}, {-6144, 3072}, {0, 0}, {0, 0}},
    {{8192, -4096, 8192}, {-2048, 4096}, {0, 0}, {0, 0}},
};

static const short weights[TAPS] = {512, 1536, 2560, 3584, 3584, 2560, 1536, 512};
static short ring[TAPS];
static int newest;

/* A step, a pulse and a square wave. */
static const short samples[SAMPLES] = {
    0, 0, 12000, 12000, 12000, 12000, 30000, -30000, 0, 0, 0, 0,
    32000, 32000, 32000, 32000, -32000, -32000, -32000, -32000, 32000, 32000, 32000, 32000,
};

static short filtered[SAMPLES];
static int cut;

/* A number within 16 bits; it counts those that had to be cut off. */
static int saturated(int value)
{
    if (value > GREATEST) {
        cut++;
        return GREATEST;
    }
    if (value < LEAST) {
        cut++;
        return LEAST;
    }
    return value;
}

/* A product's sum without its bits behind the point, rounded. */
static int rounded(int sum)
{
    return (sum + HALF) >> POINT;
}

/* One step of a section. Its sums stay within 32 bits, as the factors' sizes add up to less than four. */
static int through_section(struct section *section, int input)
{
    int sum = section->forward[0] * input;
    for (int i = 0; i < 2; i++) {
        WCET_LOOP(2);
        sum += section->forward[i + 1] * section->inputs[i];
        sum -= section->backward[i] * section->outputs[i];
    }
    int output = saturated(rounded(sum));
    section->inputs[1] = section->inputs[0];
    section->inputs[0] = input;
    section->outputs[1] = section->outputs[0];
    section->outputs[0] = output;
    return output;
}

/* The weighted mean of the last results, which lie in a ring. */
static int smoothed(int input)
{
    newest = (newest + 1) % TAPS;
    WCET_STORE(ring[newest], ring, input);
    int sum = 0;
    int place = newest;
    for (int i = 0; i < TAPS; i++) {
        WCET_LOOP(TAPS);
        sum += weights[i] * WCET_LOAD(ring[place], ring);
        place = place == 0 ? TAPS - 1 : place - 1;
    }
    return saturated(rounded(sum));
}

/* One sample through all sections and the mean. */
static int through_all(int value)
{
    for (int i = 0; i < SECTIONS; i++) {
        WCET_LOOP(SECTIONS);
        value = through_section(&sections[i], value);
    }
    return smoothed(value);
}

/* The greatest distance of a result from 0. */
static int peak(void)
{
    int most = 0;
    for (int i = 0; i < SAMPLES; i++) {
        WCET_LOOP(SAMPLES);
        int size = filtered[i] < 0 ? -filtered[i] : filtered[i];
        if (size > most)
            most = size;
    }
    return most;
}

int task(void)
{
    for (int i = 0; i < SAMPLES; i++) {
        WCET_LOOP(SAMPLES);
        WCET_STORE(filtered[i], filtered, through_all(samples[i]));
    }
    return peak() > GREATEST ? -1 : cut;
}

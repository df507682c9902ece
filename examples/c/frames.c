/* A receiver of frames from a serial line: a state machine with a switch, which calls a handler by the frame's command.
 * A frame is a mark, a command, a length, as many bytes, and their sum. The task returns what the handlers gave. */
#include "wcet.h"

#define BYTES 41
#define MOST 8
#define COMMANDS 4
#define MARK 0x7E

enum state { WAITS, COMMAND, LENGTH, PAYLOAD, SUM };

/* A frame that comes in: how far it is, and what it has so far. */
struct frame {
    unsigned char state;
    unsigned char command;
    unsigned char length;
    unsigned char count;
    unsigned char sum;
    unsigned char payload[MOST];
};

/* What the handlers keep. */
struct device {
    unsigned char settings[MOST];
    int level;
    int resets;
    int errors;
};

static struct frame frame;
static struct device device;

/* Six frames: a ping, settings, two levels, one whose sum is wrong, and a reset. */
static const unsigned char line[BYTES] = {
    0x00, MARK, 0, 0, 0, MARK, 1, 8, 1, 2, 3, 4, 5, 6, 7, 8, 45, MARK, 2, 2, 0, 7, 11, 0xFF,
    MARK, 2, 2, 1, 0, 5, MARK, 1, 3, 9, 9, 9, 0, MARK, 3, 0, 3,
};

void *memcpy(void *to, const void *from, unsigned size);
void *memset(void *to, int byte, unsigned size);

/* The handlers. Each gets the frame and tells whether it was taken. */
static int ping(struct frame *got)
{
    return got->length == 0;
}

static int settings(struct frame *got)
{
    memcpy(device.settings, got->payload, got->length);
    return 1;
}

static int level(struct frame *got)
{
    if (got->length != 2)
        return 0;
    device.level = got->payload[0] << 8 | got->payload[1];
    return 1;
}

static int reset(struct frame *got)
{
    memset(device.settings, 0, sizeof device.settings);
    device.level = 0;
    device.resets++;
    return got->length == 0;
}

static int (*const handlers[COMMANDS])(struct frame *) = {ping, settings, level, reset};

/* Calls the handler of a frame that is complete. */
static int handled(struct frame *got)
{
    if (got->command >= COMMANDS)
        return 0;
    return WCET_CALL(handlers[got->command], got, ping, settings, level, reset);
}

/* Takes one byte. It gives 1 where a frame was handled, and counts the frames that were not. */
static int take(struct frame *got, unsigned char byte)
{
    switch (got->state) {
    case WAITS:
        if (byte == MARK)
            got->state = COMMAND;
        return 0;
    case COMMAND:
        got->command = byte;
        got->sum = byte;
        got->state = LENGTH;
        return 0;
    case LENGTH:
        got->length = byte;
        got->count = 0;
        got->sum += byte;
        got->state = byte > MOST ? WAITS : byte == 0 ? SUM : PAYLOAD;
        return 0;
    case PAYLOAD:
        WCET_STORE(got->payload[got->count], frame.payload, byte);
        got->sum += byte;
        got->count++;
        if (got->count == got->length)
            got->state = SUM;
        return 0;
    default:
        got->state = WAITS;
        if (byte == got->sum && handled(got))
            return 1;
        device.errors++;
        return 0;
    }
}

/* The sum of the settings, by which the task shows that they came in whole. */
static int sum_of_settings(void)
{
    int sum = 0;
    for (int i = 0; i < MOST; i++) {
        WCET_LOOP(MOST);
        sum += WCET_LOAD(device.settings[i], device.settings);
    }
    return sum;
}

int task(void)
{
    int handled_frames = 0;
    int greatest = 0;
    for (int i = 0; i < BYTES; i++) {
        WCET_LOOP(BYTES);
        handled_frames += take(&frame, line[i]);
        int sum = sum_of_settings();
        if (sum > greatest)
            greatest = sum;
    }
    return greatest + 10 * handled_frames + device.errors + device.resets;
}

/* The check sum CRC-32 of nine bytes, four bits at a time. The sum of "123456789" is CBF43926. */
#include "wcet.h"

#define BYTES 9

/* What four bits do to the sum. */
static const unsigned table[16] = {
    0x00000000, 0x1DB71064, 0x3B6E20C8, 0x26D930AC, 0x76DC4190, 0x6B6B51F4, 0x4DB26158, 0x5005713C,
    0xEDB88320, 0xF00F9344, 0xD6D6A3E8, 0xCB61B38C, 0x9B64C2B0, 0x86D3D2D4, 0xA00AE278, 0xBDBDF21C,
};

static const unsigned char message[BYTES] = {'1', '2', '3', '4', '5', '6', '7', '8', '9'};

static unsigned crc(const unsigned char *bytes, int length)
{
    unsigned sum = 0xFFFFFFFF;
    for (int i = 0; i < length; i++) {
        WCET_LOOP(BYTES);
        sum ^= bytes[i];
        for (int half = 0; half < 2; half++) {
            WCET_LOOP(2);
            sum = sum >> 4 ^ WCET_LOAD(table[sum & 15], table);
        }
    }
    return ~sum;
}

int task(void)
{
    return crc(message, BYTES) == 0xCBF43926 ? 0 : 1;
}

/* Four ports of a device, and in a run of QEMU, which has no such device, an array in their place. Each port is read, and
 * written with the sum so far. */
#include "wcet.h"

#define PORTS 4

#ifdef DEVICE
#define PORT (*(volatile unsigned (*)[PORTS])0xA0000000)
#else
static volatile unsigned ports[PORTS] = {1, 2, 3, 4};
#define PORT ports
#endif

int task(void)
{
    unsigned sum = 0;
    for (int i = 0; i < PORTS; i++) {
        WCET_LOOP(PORTS);
        sum += WCET_LOAD(PORT[i], PORT);
        WCET_STORE(PORT[i], PORT, sum);
    }
    return sum;
}

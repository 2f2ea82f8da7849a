/* Adds up what is in the mailbox. The sum is in its own memory, right after the mailbox. */
#include "mailbox.h"

static volatile uint32_t sum;

void reader(void)
{
    sum = 0; /* the start code leaves the blocks alone */
    for (int round = 1; round <= 3; round++) {
        for (int at = 0; at < MAILBOX_WORDS; at++)
            sum += mailbox[at];
        put_round('r', mailbox[0]);
        yield();
    }
    put_round('s', sum / MAILBOX_WORDS);
    leave();
}

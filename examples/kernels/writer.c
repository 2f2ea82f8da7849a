/* Puts its round into each word of the mailbox. */
#include "mailbox.h"

void writer(void)
{
    for (uint32_t round = 1; round <= 3; round++) {
        for (int at = 0; at < MAILBOX_WORDS; at++)
            mailbox[at] = round;
        put_round('w', round);
        yield();
    }
    leave();
}

/* What the two tasks of mailbox share, on purpose. */
#ifndef MAILBOX_H
#define MAILBOX_H

#include "tasks.h"

#define MAILBOX_WORDS 8

/* 32 bytes: the writer may read and write them, the reader may read them. */
extern volatile uint32_t mailbox[MAILBOX_WORDS];

void writer(void);
void reader(void);

#endif

/* The kernel mailbox with one mistake: SIZE of the writer's region of the mailbox is 5, as if a region of SIZE n had
   2^n bytes. It has 2^(n + 1), which are 64: the 32 bytes of the mailbox, and the 32 after it, which are the reader's.
   What it prints is what mailbox prints. */
#define SIZE_WRITERS_MAILBOX 5
#include "mailbox.c"

/* crc32.c with many rounds: a long run for the bench, which prints at its end. */
#define ROUNDS 300
#include "crc32.c"

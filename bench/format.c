/* The limit that the bench compares with: a plain C program that does no more than format the lines of a loop's trace
   and write them out. The loop is MOV, STR, LDR, B at 0x100, so six lines for four steps, or B alone, one line a step. */
#include <stdint.h>
#include <stdio.h>
#include <stdlib.h>
#include <string.h>
#include <unistd.h>

static char page[1 << 16];
static size_t used;
static char digits[24];
static int first = 23;
static const char hex[] = "0123456789ABCDEF";

static void count(void) {
    int at = 22;
    while (digits[at] == '9') digits[at--] = '0';
    if (at < first) { digits[at] = '1'; first = at; } else digits[at]++;
}

static void line(char kind, uint32_t address, char size) {
    if (used > sizeof page - 64) { if (write(1, page, used) < 0) exit(1); used = 0; }
    char *p = page + used;
    memcpy(p, digits + first, 23 - first);
    p += 23 - first;
    *p++ = ' '; *p++ = kind; *p++ = ' ';
    for (int shift = 28; shift >= 0; shift -= 4) *p++ = hex[address >> shift & 15];
    *p++ = ' '; *p++ = size;
    memcpy(p, " p ok off\n", 10);
    used = p + 10 - page;
}

int main(int words, char **word) {
    if (words != 3) return 2;
    int alone = strcmp(word[1], "branch") == 0;
    long steps = atol(word[2]);
    for (long step = 0; step < steps; step++) {
        count();
        if (alone) { line('F', 0x100, '2'); continue; }
        uint32_t at = 0x100 + 2 * (step & 3);
        line('F', at, '2');
        if ((step & 3) == 1) line('S', 0x20000010, '4');
        if ((step & 3) == 2) line('L', 0x20000010, '4');
    }
    return write(1, page, used) < 0;
}

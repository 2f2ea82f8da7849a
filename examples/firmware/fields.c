/* Small numbers: bit fields, signed bytes and halfwords, limits, byte order, and a filter with sums of 64 bits. */
#include "library.h"

#define COUNT(list) (sizeof list / sizeof list[0])

/* A line of a log, as a device would pack it. */
struct line {
    uint32_t day : 5, month : 4, year : 12;
    int32_t degrees : 8;
    uint32_t valid : 1, low_battery : 1;
    int16_t pressure;
    int8_t offset;
    uint8_t check;
};

static volatile int32_t readings[] = {
    0, 1, -1, 99, -100, 127, 128, -128, -129, 32767, 32768, -32769, 1000000, -1000000,
};
static struct line lines[COUNT(readings)];
static int16_t samples[64], filtered[64];
static const int16_t taps[] = {-512, 1024, 8192, 15360, 8192, 1024, -512};

static int limited(int value, int least, int most)
{
    return value < least ? least : value > most ? most : value;
}

static void pack(struct line *line, int reading, unsigned number)
{
    line->day = number % 28;
    line->month = 1 + number % 12;
    line->year = 2000 + number;
    line->degrees = limited(reading, -128, 127);
    line->low_battery = reading < 0;
    line->valid = !line->low_battery;
    line->pressure = (int16_t)limited(reading, INT16_MIN, INT16_MAX);
    line->offset = (int8_t)(reading % 100);
    line->check = (uint8_t)(line->pressure ^ line->offset ^ line->degrees);
}

static void print_lines(void)
{
    for (unsigned number = 0; number < COUNT(readings); number++)
        pack(&lines[number], readings[number], 37 * number);
    for (struct line *line = lines; line < lines + COUNT(lines); line++) {
        line->day += 1;
        printf("%04u-%02u-%02u %4d %6d %3d %02x %u%u", line->year, line->month, line->day, line->degrees,
               line->pressure, line->offset, line->check, line->valid, line->low_battery);
        printf(", by 7: %d rest %d\n", line->pressure / 7, line->pressure % 7);
    }
    for (size_t at = 0; at < COUNT(readings); at++)
        printf("%d%c", limited(readings[at], 0, 255), at + 1 < COUNT(readings) ? ' ' : '\n');
}

static uint32_t in_other_order(uint32_t word)
{
    return word << 24 | (word & 0xFF00) << 8 | (word >> 8 & 0xFF00) | word >> 24;
}

static uint16_t halfword_in_other_order(uint16_t halfword)
{
    return (uint16_t)(halfword << 8 | halfword >> 8);
}

static void print_orders(void)
{
    for (size_t at = 0; at < COUNT(readings); at += 3) {
        uint32_t word = (uint32_t)readings[at] * 0x9E3779B1u + 0x12345678u;
        int16_t halfword = (int16_t)halfword_in_other_order((uint16_t)word);
        uint32_t pairs = (word & 0x00FF00FF) << 8 | (word >> 8 & 0x00FF00FF);
        printf("%08x %08x %08x %6d\n", (unsigned)word, (unsigned)in_other_order(word), (unsigned)pairs, halfword);
    }
}

static int32_t quotient(int32_t dividend, int32_t divisor)
{
    return divisor != 0 ? dividend / divisor : 0;
}

static void print_quotients(void)
{
    for (size_t one = 0; one < COUNT(readings); one++) {
        int32_t sum = 0;
        for (size_t other = 0; other < COUNT(readings); other++)
            sum += quotient(readings[one], readings[other]) - readings[one] % (readings[other] | 1);
        printf("%d%c", (int)sum, one + 1 < COUNT(readings) ? ' ' : '\n');
    }
}

static void filter(void)
{
    int64_t energy = 0;
    for (size_t at = 0; at < COUNT(samples); at++)
        samples[at] = (int16_t)((at * at * 977 + at * 12345) ^ 0x5A5A);
    for (size_t at = 0; at + COUNT(taps) <= COUNT(samples); at++) {
        int64_t sum = 0;
        for (size_t tap = 0; tap < COUNT(taps); tap++)
            sum += (int64_t)taps[tap] * samples[at + tap];
        filtered[at] = (int16_t)limited((int)(sum >> 14), INT16_MIN, INT16_MAX);
        energy += (int64_t)filtered[at] * filtered[at];
    }
    for (size_t at = 0; at < COUNT(filtered); at += 7)
        printf("%d -> %d\n", samples[at], filtered[at]);
    printf("energy %lld\n", (long long)energy);
}

int main(void)
{
    print_lines();
    print_orders();
    print_quotients();
    filter();
    return in_other_order(0x01020304) != 0x04030201 || limited(300, 0, 255) != 255;
}

/* CRC-32 as IEEE 802.3 has it: bit by bit, and by a table that is made at the start. The check value of "123456789" is
   CBF43926. ROUNDS says how often the longer data goes through the table: many times in crc32-loop.c. */
#include "library.h"

#define LENGTH 4096
#ifndef ROUNDS
#define ROUNDS 1
#endif

static uint32_t table[256];
static uint8_t data[LENGTH];

static uint32_t shifted(uint32_t remainder)
{
    for (int bit = 0; bit < 8; bit++)
        remainder = (remainder & 1) != 0 ? remainder >> 1 ^ 0xEDB88320u : remainder >> 1;
    return remainder;
}

static void make_table(void)
{
    for (uint32_t byte = 0; byte < 256; byte++)
        table[byte] = shifted(byte);
}

static uint32_t crc_by_bits(const uint8_t *bytes, size_t count)
{
    uint32_t remainder = UINT32_MAX;
    for (size_t at = 0; at < count; at++)
        remainder = shifted(remainder ^ bytes[at]);
    return ~remainder;
}

/* Goes on from the CRC of what came before; 0 is that of nothing. */
static uint32_t crc_by_table(uint32_t crc, const uint8_t *bytes, size_t count)
{
    uint32_t remainder = ~crc;
    for (size_t at = 0; at < count; at++)
        remainder = remainder >> 8 ^ table[(remainder ^ bytes[at]) & 0xFF];
    return ~remainder;
}

int main(void)
{
    const uint8_t *digits = (const uint8_t *)"123456789";
    uint32_t number = 1, crc = 0;
    make_table();
    for (size_t at = 0; at < LENGTH; at++) {
        number = 1664525 * number + 1013904223;
        data[at] = (uint8_t)(number >> 24);
    }
    uint32_t by_bits = crc_by_bits(digits, 9), by_table = crc_by_table(0, digits, 9);
    for (int round = 0; round < ROUNDS; round++)
        crc = crc_by_table(crc, data, LENGTH);
    printf("123456789: %08X by bits, %08X by the table\n", (unsigned)by_bits, (unsigned)by_table);
    printf("%d bytes, %d times: %08X\n", LENGTH, ROUNDS, (unsigned)crc);
    if (by_bits != 0xCBF43926u || by_table != 0xCBF43926u)
        return 1;
    return crc_by_bits(data, LENGTH) != crc_by_table(0, data, LENGTH);
}

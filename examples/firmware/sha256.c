/* SHA-256 as FIPS 180-4 has it, with the published digests of "abc" and of the message of 56 bytes. */
#include "library.h"

static const uint32_t constants[64] = {
    0x428a2f98, 0x71374491, 0xb5c0fbcf, 0xe9b5dba5, 0x3956c25b, 0x59f111f1, 0x923f82a4, 0xab1c5ed5,
    0xd807aa98, 0x12835b01, 0x243185be, 0x550c7dc3, 0x72be5d74, 0x80deb1fe, 0x9bdc06a7, 0xc19bf174,
    0xe49b69c1, 0xefbe4786, 0x0fc19dc6, 0x240ca1cc, 0x2de92c6f, 0x4a7484aa, 0x5cb0a9dc, 0x76f988da,
    0x983e5152, 0xa831c66d, 0xb00327c8, 0xbf597fc7, 0xc6e00bf3, 0xd5a79147, 0x06ca6351, 0x14292967,
    0x27b70a85, 0x2e1b2138, 0x4d2c6dfc, 0x53380d13, 0x650a7354, 0x766a0abb, 0x81c2c92e, 0x92722c85,
    0xa2bfe8a1, 0xa81a664b, 0xc24b8b70, 0xc76c51a3, 0xd192e819, 0xd6990624, 0xf40e3585, 0x106aa070,
    0x19a4c116, 0x1e376c08, 0x2748774c, 0x34b0bcb5, 0x391c0cb3, 0x4ed8aa4a, 0x5b9cca4f, 0x682e6ff3,
    0x748f82ee, 0x78a5636f, 0x84c87814, 0x8cc70208, 0x90befffa, 0xa4506ceb, 0xbef9a3f7, 0xc67178f2,
};

struct hash {
    uint32_t words[8];
    uint8_t block[64];
    uint64_t length;
};

static uint32_t rotated(uint32_t word, int places)
{
    return word >> places | word << (32 - places);
}

static void start(struct hash *hash)
{
    *hash = (struct hash){.words = {0x6a09e667, 0xbb67ae85, 0x3c6ef372, 0xa54ff53a,
                                    0x510e527f, 0x9b05688c, 0x1f83d9ab, 0x5be0cd19}};
}

static void take_block(struct hash *hash)
{
    uint32_t w[64];
    for (int at = 0; at < 16; at++) {
        const uint8_t *bytes = &hash->block[4 * at];
        w[at] = (uint32_t)bytes[0] << 24 | (uint32_t)bytes[1] << 16 | (uint32_t)bytes[2] << 8 | bytes[3];
    }
    for (int at = 16; at < 64; at++) {
        uint32_t first = rotated(w[at - 15], 7) ^ rotated(w[at - 15], 18) ^ w[at - 15] >> 3;
        uint32_t second = rotated(w[at - 2], 17) ^ rotated(w[at - 2], 19) ^ w[at - 2] >> 10;
        w[at] = w[at - 16] + first + w[at - 7] + second;
    }
    uint32_t a = hash->words[0], b = hash->words[1], c = hash->words[2], d = hash->words[3];
    uint32_t e = hash->words[4], f = hash->words[5], g = hash->words[6], h = hash->words[7];
    for (int at = 0; at < 64; at++) {
        uint32_t choice = (e & f) ^ (~e & g), majority = (a & b) ^ (a & c) ^ (b & c);
        uint32_t first = h + (rotated(e, 6) ^ rotated(e, 11) ^ rotated(e, 25)) + choice + constants[at] + w[at];
        uint32_t second = (rotated(a, 2) ^ rotated(a, 13) ^ rotated(a, 22)) + majority;
        h = g;
        g = f;
        f = e;
        e = d + first;
        d = c;
        c = b;
        b = a;
        a = first + second;
    }
    uint32_t v[8] = {a, b, c, d, e, f, g, h};
    for (int at = 0; at < 8; at++)
        hash->words[at] += v[at];
}

static void take(struct hash *hash, const char *bytes, size_t count)
{
    for (; count > 0; count--) {
        hash->block[hash->length++ % 64] = (uint8_t)*bytes++;
        if (hash->length % 64 == 0)
            take_block(hash);
    }
}

/* Ends the message, and writes the digest in hexadecimal. */
static void finish(struct hash *hash, char *text)
{
    uint64_t bits = 8 * hash->length;
    take(hash, "\x80", 1);
    while (hash->length % 64 != 56)
        take(hash, "", 1);
    for (int at = 56; at >= 0; at -= 8) {
        char byte = (char)(bits >> at);
        take(hash, &byte, 1);
    }
    for (int at = 0; at < 64; at++)
        text[at] = "0123456789abcdef"[hash->words[at / 8] >> (28 - at % 8 * 4) & 15];
    text[64] = 0;
}

/* Prints the digest of a piece, so many times in a row, and answers whether it is the one that is wanted. */
static bool digest(const char *name, const char *piece, int times, const char *wanted)
{
    struct hash hash;
    char text[65];
    start(&hash);
    for (int time = 0; time < times; time++)
        take(&hash, piece, strlen(piece));
    finish(&hash, text);
    printf("%s: %s\n", name, text);
    return strcmp(text, wanted) == 0;
}

int main(void)
{
    const char *longer = "abcdbcdecdefdefgefghfghighijhijkijkljklmklmnlmnomnopnopq";
    bool well = true;
    well &= digest("nothing", "", 1, "e3b0c44298fc1c149afbf4c8996fb92427ae41e4649b934ca495991b7852b855");
    well &= digest("abc", "abc", 1, "ba7816bf8f01cfea414140de5dae2223b00361a396177a9cb410ff61f20015ad");
    well &= digest("56 bytes", longer, 1, "248d6a61d20638b8e5c026930c3e6039a33ce45964ff2167f6ecedd419db06c1");
    well &= digest("10000 a", "aaaaaaaaaa", 1000, "27dd1f61b867b6a0f6e9d8a41c43231de52107e53ae424de8f847b821db4b711");
    return !well;
}

/* What the bench of the decoder takes for an ordinary program: a checksum, a sort, decimals, a ring of bytes, a filter,
   a search in text, a table of states and 64-bit products, as firmware has them. It is only compiled. */
#include <stddef.h>
#include <stdint.h>

#define UART ((volatile uint32_t *)0x40004400)

struct ring { uint8_t bytes[64]; volatile uint32_t first, last; };
struct item { uint16_t key; int8_t level; uint8_t flags; struct item *next; };

uint32_t checksum(const uint8_t *bytes, size_t count) {
    uint32_t sum = 0xFFFFFFFFu;
    for (size_t at = 0; at < count; at++) {
        sum ^= bytes[at];
        for (int bit = 0; bit < 8; bit++) sum = sum & 1 ? sum >> 1 ^ 0xEDB88320u : sum >> 1;
    }
    return ~sum;
}

void sort(int32_t *words, int32_t low, int32_t high) {
    if (low >= high) return;
    int32_t pivot = words[(low + high) / 2], left = low, right = high;
    while (left <= right) {
        while (words[left] < pivot) left++;
        while (words[right] > pivot) right--;
        if (left <= right) { int32_t word = words[left]; words[left++] = words[right]; words[right--] = word; }
    }
    sort(words, low, right);
    sort(words, left, high);
}

size_t decimal(char *text, int32_t value) {
    char digits[12];
    size_t count = 0, used = 0;
    uint32_t rest = value < 0 ? 0u - (uint32_t)value : (uint32_t)value;
    do { digits[count++] = (char)('0' + rest % 10); rest /= 10; } while (rest);
    if (value < 0) text[used++] = '-';
    while (count) text[used++] = digits[--count];
    text[used] = 0;
    return used;
}

int put(struct ring *ring, uint8_t byte) {
    uint32_t next = (ring->last + 1) % sizeof ring->bytes;
    if (next == ring->first) return 0;
    ring->bytes[ring->last] = byte;
    ring->last = next;
    return 1;
}

void drain(struct ring *ring) {
    while (ring->first != ring->last && UART[0] & 0x80) {
        UART[1] = ring->bytes[ring->first];
        ring->first = (ring->first + 1) % sizeof ring->bytes;
    }
}

void filter(int16_t *out, const int16_t *in, const int16_t *taps, int count, int length) {
    for (int at = 0; at + length <= count; at++) {
        int64_t sum = 0;
        for (int tap = 0; tap < length; tap++) sum += (int32_t)in[at + tap] * taps[tap];
        sum >>= 15;
        out[at] = (int16_t)(sum > 32767 ? 32767 : sum < -32768 ? -32768 : sum);
    }
}

const char *find(const char *text, const char *word) {
    for (; *text; text++) {
        size_t at = 0;
        while (word[at] && text[at] == word[at]) at++;
        if (!word[at]) return text;
    }
    return NULL;
}

int next_state(int state, uint8_t byte) {
    switch (state) {
    case 0: return byte == 0x55 ? 1 : 0;
    case 1: return byte & 0x80 ? 0 : 2;
    case 2: return byte == 0xAA ? 3 : 2;
    case 3: return byte < 16 ? 4 + byte : 0;
    case 4: case 5: case 6: return state + 1;
    default: return (int)(byte >> 4);
    }
}

uint64_t product(uint32_t x, uint32_t y, uint64_t sum) { return sum + (uint64_t)x * y; }

struct item *insert(struct item *head, struct item *new) {
    struct item **at = &head;
    while (*at && ((*at)->level > new->level || ((*at)->level == new->level && (*at)->key < new->key))) at = &(*at)->next;
    new->next = *at;
    new->flags |= 3;
    *at = new;
    return head;
}

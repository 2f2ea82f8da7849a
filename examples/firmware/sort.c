/* Sorts 200 pseudo-random numbers by quicksort and by heapsort, and words by insertion in two orders. */
#include "library.h"

#define COUNT 200
#define WORDS 10

static uint32_t state = 2463534242u;
static int32_t quick[COUNT], heap[COUNT];
static const char *words[WORDS] = {"pear", "fig", "apple", "quince", "plum", "grape", "lime", "figs", "", "date"};
static unsigned exchanges;

static uint32_t next_random(void)
{
    state ^= state << 13;
    state ^= state >> 17;
    state ^= state << 5;
    return state;
}

static void exchange(int32_t *one, int32_t *other)
{
    int32_t kept = *one;
    *one = *other;
    *other = kept;
    exchanges++;
}

static void quicksort(int32_t *numbers, int low, int high)
{
    int left = low, right = high;
    int32_t pivot = numbers[low + (high - low) / 2];
    while (left <= right) {
        while (numbers[left] < pivot)
            left++;
        while (numbers[right] > pivot)
            right--;
        if (left <= right)
            exchange(&numbers[left++], &numbers[right--]);
    }
    if (low < right)
        quicksort(numbers, low, right);
    if (left < high)
        quicksort(numbers, left, high);
}

static void sift(int32_t *numbers, int root, int count)
{
    for (int child = 2 * root + 1; child < count; child = 2 * root + 1) {
        if (child + 1 < count && numbers[child] < numbers[child + 1])
            child++;
        if (numbers[root] >= numbers[child])
            return;
        exchange(&numbers[root], &numbers[child]);
        root = child;
    }
}

static void heapsort(int32_t *numbers, int count)
{
    for (int root = count / 2; root-- > 0;)
        sift(numbers, root, count);
    while (--count > 0) {
        exchange(&numbers[0], &numbers[count]);
        sift(numbers, 0, count);
    }
}

static int by_length(const char *one, const char *other)
{
    return (int)strlen(one) - (int)strlen(other);
}

static int (*const orders[])(const char *one, const char *other) = {strcmp, by_length};

/* Words that are equal in this order stay as they stand. */
static void sort_words(int order)
{
    for (size_t next = 1; next < WORDS; next++) {
        const char *word = words[next];
        size_t at = next;
        for (; at > 0 && orders[order](words[at - 1], word) > 0; at--)
            words[at] = words[at - 1];
        words[at] = word;
    }
    for (size_t at = 0; at < WORDS; at++)
        printf("\"%s\"%c", words[at], at + 1 < WORDS ? ' ' : '\n');
}

static void print_row(const char *name, const int32_t *numbers)
{
    int64_t sum = 0;
    uint32_t check = 0;
    for (int at = 0; at < COUNT; at++) {
        sum += numbers[at];
        check = 31 * check + (uint32_t)numbers[at];
    }
    printf("%s: sum %lld, check %08x, exchanges %u\n", name, (long long)sum, (unsigned)check, exchanges);
    exchanges = 0;
}

int main(void)
{
    for (int at = 0; at < COUNT; at++) {
        int32_t number = (int32_t)next_random() % 1000000;
        quick[at] = heap[at] = at % 8 == 7 ? heap[at / 2] : number;
    }
    print_row("given", quick);
    quicksort(quick, 0, COUNT - 1);
    print_row("quicksort", quick);
    heapsort(heap, COUNT);
    print_row("heapsort", heap);
    for (int at = 0; at < COUNT; at += 20)
        printf("%3d to %3d: %8d .. %8d\n", at, at + 19, (int)quick[at], (int)quick[at + 19]);
    for (int order = 0; order < 2; order++)
        sort_words(order);
    for (int at = 0; at < COUNT; at++) {
        if (quick[at] != heap[at] || (at > 0 && quick[at - 1] > quick[at]))
            return 1;
    }
    return 0;
}

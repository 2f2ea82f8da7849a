/* The main line and an interrupt add to the same word. With ATOMIC 0 the main line loads, adds and stores, so what the
   interrupt adds between the load and the store is lost. With ATOMIC 1 it uses LDREX and STREX, and nothing is lost. */
#include <stdint.h>

#define ROUNDS 4
#define NVIC_ISER0 (*(volatile uint32_t *)0xE000E100)

volatile uint32_t counter, interrupts;

/* The handler of interrupt line 0. */
void line_0(void)
{
    counter = counter + 1;
    interrupts = interrupts + 1;
}

static void count(void)
{
#if ATOMIC
    uint32_t value, failed;
    do {
        __asm volatile("ldrex %0, [%1]" : "=r"(value) : "r"(&counter) : "memory");
        value++;
        __asm volatile("strex %0, %1, [%2]" : "=&r"(failed) : "r"(value), "r"(&counter) : "memory");
    } while (failed);
#else
    counter = counter + 1;
#endif
}

int main(void)
{
    NVIC_ISER0 = 1;
    for (int round = 0; round < ROUNDS; round++)
        count();
    return 0;
}

__attribute__((naked)) void reset(void)
{
    __asm volatile("bl main\n bkpt 0\n b .");
}

typedef void (*entry)(void);

__attribute__((section(".vectors"), used)) static const entry vectors[17] = {(entry)0x20001000, reset, [16] = line_0};

/* C11 atomics that a handler and the main line share. SysTick interrupts the main line every 97 ticks, so now and then
   between a load exclusive and its store exclusive: the store fails, and the update is made again. */
#include <stdatomic.h>
#include "console.h"
#include "registers.h"

#define UPDATES 300
#define TURNS 100
#define PERIOD 97

/* A word, a halfword and a byte, of which the first two are counters of both. */
static _Atomic uint32_t words;
static _Atomic uint16_t halfwords;
static _Atomic uint8_t lock;

static uint32_t turns;
static uint32_t found_locked;

/* SysTick: counts like the main line, and looks whether it holds the lock. */
void sys_tick(void)
{
    if (turns == TURNS)
        return;
    turns++;
    atomic_fetch_add(&words, 0x10000);
    atomic_fetch_add(&halfwords, 1);
    if (atomic_exchange(&lock, 1) != 0)
        found_locked++;
    else
        atomic_store(&lock, 0);
}

/* Adds 1 by hand, and returns how often the store failed. */
static uint32_t add_one(void)
{
    uint32_t failures = 0;
    uint32_t old = atomic_load(&words);
    while (!atomic_compare_exchange_weak(&words, &old, old + 1))
        failures++;
    return failures;
}

static void put_line(const char *text, uint32_t value)
{
    put_text(text);
    put_hex(value);
    put_text("\n");
}

int main(void)
{
    uint32_t failures = 0;
    SYST_RVR = PERIOD - 1;
    SYST_CVR = 0;
    SYST_CSR = SYST_CSR_ENABLE | SYST_CSR_TICKINT;
    for (uint32_t update = 0; update < UPDATES; update++) {
        while (atomic_exchange(&lock, 1) != 0)
            ;
        failures += add_one();
        atomic_fetch_add(&halfwords, 1);
        atomic_store(&lock, 0);
    }
    while (*(volatile uint32_t *)&turns < TURNS)
        ;
    SYST_CSR = 0;
    put_line("words ", words);
    put_line("halfwords ", halfwords);
    put_text(failures != 0 ? "a store of the main line failed\n" : "no store failed\n");
    put_text(found_locked != 0 ? "the handler found the lock taken\n" : "the lock was always free\n");
    return 0;
}

/* Fills a table, sorts it, and prints a checksum of it: a program to inject faults into. It confines itself first: main
   runs without privilege under three regions. Each fault ends the run by BKPT 1. */
#include <stdint.h>

#define LENGTH 24
#define OUT (*(volatile uint32_t *)0x40000000)
#define MPU_CTRL (*(volatile uint32_t *)0xE000ED94)
#define MPU_RBAR (*(volatile uint32_t *)0xE000ED9C)
#define MPU_RASR (*(volatile uint32_t *)0xE000EDA0)

#define VALID 0x10u
#define XN (1u << 28)
#define READ_ONLY (6u << 24)
#define READ_WRITE (3u << 24)
#define SIZE(power) (((power) - 1u) << 1)
#define ENABLE 1u

static uint32_t table[LENGTH];

void on_fault(void)
{
    __asm volatile("bkpt 1");
}

static void confine(void)
{
    MPU_RBAR = 0x00000000 | VALID | 0; /* 1 KiB of flash: code and constants */
    MPU_RASR = READ_ONLY | SIZE(10) | ENABLE;
    MPU_RBAR = 0x20000000 | VALID | 1; /* 1 KiB of RAM: the table and the stack */
    MPU_RASR = XN | READ_WRITE | SIZE(10) | ENABLE;
    MPU_RBAR = 0x40000000 | VALID | 2; /* 32 bytes: the console */
    MPU_RASR = XN | READ_WRITE | SIZE(5) | ENABLE;
    MPU_CTRL = 5; /* ENABLE and PRIVDEFENA */
    __asm volatile("msr control, %0\n isb" ::"r"(1) : "memory");
}

static void fill(void)
{
    uint32_t value = 12345;
    for (int k = 0; k < LENGTH; k++)
        table[k] = value = value * 1664525 + 1013904223;
}

static void sort(void)
{
    for (int k = 1; k < LENGTH; k++) {
        uint32_t value = table[k];
        int at = k;
        for (; at > 0 && table[at - 1] > value; at--)
            table[at] = table[at - 1];
        table[at] = value;
    }
}

static void print(uint32_t value)
{
    for (int shift = 28; shift >= 0; shift -= 4)
        OUT = "0123456789ABCDEF"[value >> shift & 15];
    OUT = '\n';
}

int main(void)
{
    confine();
    fill();
    sort();
    uint32_t sum = 0;
    for (int k = 0; k < LENGTH; k++)
        sum = (sum << 5 | sum >> 27) ^ table[k];
    print(sum);
    return 0;
}

__attribute__((naked)) void reset(void)
{
    __asm volatile("bl main\n bkpt 0\n b .");
}

typedef void (*entry)(void);

__attribute__((section(".vectors"), used)) static const entry vectors[16] = {
    (entry)0x20000400, reset, [2 ... 15] = on_fault,
};

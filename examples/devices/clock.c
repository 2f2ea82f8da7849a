/* STM32F103: the clock goes from 8 MHz inside to 72 MHz from a crystal, with a limit on how long each step waits; then
   USART1 sends a text by polling. Registers and bits are those of ST's RM0008. */

#include "registers.h"

#define RCC_CR REGISTER(0x40021000u)
#define HSEON (1u << 16)
#define HSERDY (1u << 17)
#define PLLON (1u << 24)
#define PLLRDY (1u << 25)

#define RCC_CFGR REGISTER(0x40021004u)
#define SW_PLL 2u
#define SWS_PLL (2u << 2)
#define SWS (3u << 2)
#define PPRE1_HALF (4u << 8)
#define PLLSRC_HSE (1u << 16)
#define PLLMUL_9 (7u << 18)

#define RCC_APB2ENR REGISTER(0x40021018u)
#define AFIOEN 1u
#define IOPAEN (1u << 2)
#define USART1EN (1u << 14)

#define FLASH_ACR REGISTER(0x40022000u)
#define TWO_WAIT_STATES 2u

#define GPIOA_CRH REGISTER(0x40010804u)

#define USART1_SR REGISTER(0x40013800u)
#define TXE (1u << 7)
#define TC (1u << 6)
#define USART1_DR REGISTER(0x40013804u)
#define USART1_BRR REGISTER(0x40013808u)
#define USART1_CR1 REGISTER(0x4001380Cu)
#define UE (1u << 13)
#define TE (1u << 3)

/* Waits until the bits of a register are as wanted. Returns 1, or 0 where that takes too long. */
static int waits(volatile uint32_t *at, uint32_t bits, uint32_t wanted)
{
    for (int tries = 0; tries < 500; tries++)
        if ((*at & bits) == wanted)
            return 1;
    return 0;
}

/* Sets the clock up. Returns 0, or the number of the step that failed. */
static int set_up_clock(void)
{
    RCC_CR |= HSEON;
    if (!waits(&RCC_CR, HSERDY, HSERDY))
        return 1;
    FLASH_ACR |= TWO_WAIT_STATES;
    RCC_CFGR |= PPRE1_HALF | PLLSRC_HSE | PLLMUL_9;
    RCC_CR |= PLLON;
    if (!waits(&RCC_CR, PLLRDY, PLLRDY))
        return 2;
    RCC_CFGR |= SW_PLL;
    if (!waits(&RCC_CFGR, SWS, SWS_PLL))
        return 3;
    return 0;
}

static void put(const char *text)
{
    for (; *text; text++) {
        while (!(USART1_SR & TXE))
            ;
        USART1_DR = (uint8_t)*text;
    }
}

static void put_hex(uint32_t value)
{
    char text[10] = "00000000\n";
    for (int place = 7; place >= 0; place--, value >>= 4)
        text[place] = "0123456789ABCDEF"[value & 15];
    put(text);
}

int main(void)
{
    int failed = set_up_clock();
    RCC_APB2ENR |= AFIOEN | IOPAEN | USART1EN;
    GPIOA_CRH = (GPIOA_CRH & ~0xFF0u) | 0x4B0u; /* PA9 sends, PA10 receives */
    USART1_BRR = 72000000 / 115200;
    USART1_CR1 = UE | TE;
    put(failed ? "no clock\n" : "72 MHz\n");
    put("RCC_CR ");
    put_hex(RCC_CR);
    put("RCC_CFGR ");
    put_hex(RCC_CFGR);
    while (!(USART1_SR & TC))
        ;
    return failed;
}

/* STM32F103: a button at PA0 makes an interrupt by its falling edge, and each press toggles the LED at PC13. The third
   press ends the program. Registers and bits are those of ST's RM0008. */

#include "registers.h"

#define RCC_APB2ENR REGISTER(0x40021018u)
#define AFIOEN 1u
#define IOPAEN (1u << 2)
#define IOPCEN (1u << 4)

#define GPIOA_CRL REGISTER(0x40010800u)
#define INPUT_WITH_PULL 8u
#define GPIOA_IDR REGISTER(0x40010808u)
#define GPIOA_ODR REGISTER(0x4001080Cu)
#define GPIOC_CRH REGISTER(0x40011004u)
#define OUTPUT_2_MHZ 2u
#define GPIOC_ODR REGISTER(0x4001100Cu)

#define EXTI_IMR REGISTER(0x40010400u)
#define EXTI_FTSR REGISTER(0x4001040Cu)
#define EXTI_PR REGISTER(0x40010414u)

#define USART1_SR REGISTER(0x40013800u)
#define TXE (1u << 7)
#define USART1_DR REGISTER(0x40013804u)

#define BUTTON 1u
#define LED (1u << 13)

static volatile uint32_t presses;

/* EXTI0: its bit of EXTI_PR is cleared by a 1. A pin that is high again bounced, and doesn't count. */
void IRQ6_Handler(void)
{
    EXTI_PR = BUTTON;
    if (!(GPIOA_IDR & BUTTON)) {
        presses++;
        GPIOC_ODR ^= LED;
    }
}

static void put(const char *text)
{
    for (; *text; text++) {
        while (!(USART1_SR & TXE))
            ;
        USART1_DR = (uint8_t)*text;
    }
}

/* Sleeps until the button was pressed so often. */
static void wait_for(uint32_t count)
{
    mask();
    while (presses < count) {
        sleep();
        unmask();
        mask();
    }
    unmask();
}

int main(void)
{
    RCC_APB2ENR |= AFIOEN | IOPAEN | IOPCEN;
    GPIOA_CRL = (GPIOA_CRL & ~0xFu) | INPUT_WITH_PULL;
    GPIOA_ODR |= BUTTON; /* pulled up */
    GPIOC_CRH = (GPIOC_CRH & ~0xF00000u) | OUTPUT_2_MHZ << 20;
    EXTI_FTSR |= BUTTON;
    EXTI_IMR |= BUTTON;
    ENABLE_INTERRUPT(6);
    for (uint32_t count = 1; count <= 3; count++) {
        wait_for(count);
        put(GPIOC_ODR & LED ? "high\n" : "low\n");
    }
    return 0;
}

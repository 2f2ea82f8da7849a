/* LM3S6965: UART0 by interrupts. Each byte that comes in is kept in a ring by the handler of interrupt 5; main sleeps
   until there is one, and sends it back in upper case. A full stop ends the program. Registers and bits are those of
   TI's data sheet. */

#include "registers.h"

#define UARTDR REGISTER(0x4000C000u)
#define UARTFR REGISTER(0x4000C018u)
#define RXFE (1u << 4)
#define TXFF (1u << 5)
#define UARTIBRD REGISTER(0x4000C024u)
#define UARTFBRD REGISTER(0x4000C028u)
#define UARTLCRH REGISTER(0x4000C02Cu)
#define EIGHT_BITS (3u << 5)
#define UARTCTL REGISTER(0x4000C030u)
#define UARTEN 1u
#define TXE (1u << 8)
#define RXE (1u << 9)
#define UARTIM REGISTER(0x4000C038u)
#define UARTMIS REGISTER(0x4000C040u)
#define UARTICR REGISTER(0x4000C044u)
#define RXMIS (1u << 4)

/* What came in: written by the handler, and taken by main. */
static volatile uint8_t ring[16];
static volatile uint32_t came, taken;

/* UART0. */
void IRQ5_Handler(void)
{
    UARTICR = UARTMIS;
    while (!(UARTFR & RXFE))
        ring[came++ % 16] = (uint8_t)UARTDR;
}

static void put(char byte)
{
    while (UARTFR & TXFF)
        ;
    UARTDR = (uint8_t)byte;
}

static void put_text(const char *text)
{
    while (*text)
        put(*text++);
}

/* Sleeps until a byte is there. With interrupts masked WFI returns where one waits, so none is missed between the look
   at the ring and the sleep. */
static char get(void)
{
    mask();
    while (came == taken) {
        sleep();
        unmask();
        mask();
    }
    unmask();
    return (char)ring[taken++ % 16];
}

int main(void)
{
    UARTIBRD = 27; /* 115,200 baud from 50 MHz */
    UARTFBRD = 8;
    UARTLCRH = EIGHT_BITS;
    UARTCTL = UARTEN | TXE | RXE;
    UARTIM = RXMIS;
    ENABLE_INTERRUPT(5);
    put_text("ready\n");
    for (char byte = get(); byte != '.'; byte = get())
        put(byte >= 'a' && byte <= 'z' ? (char)(byte - 'a' + 'A') : byte);
    put_text("\nend\n");
    return 0;
}

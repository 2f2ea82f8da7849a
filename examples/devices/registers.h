/* Registers of a chip, by their addresses in its manual, and the handlers of interrupts. */
#ifndef REGISTERS_H
#define REGISTERS_H

#include <stdint.h>

#define REGISTER(address) (*(volatile uint32_t *)(address))

/* NVIC_ISER0: a 1 enables an interrupt. */
#define ENABLE_INTERRUPT(number) (REGISTER(0xE000E100u) = 1u << (number))

/* Keeps interrupts waiting, and lets them in; sleeps until one waits. */
static inline void mask(void) { __asm__ volatile("cpsid i" ::: "memory"); }
static inline void unmask(void) { __asm__ volatile("cpsie i" ::: "memory"); }
static inline void sleep(void) { __asm__ volatile("wfi" ::: "memory"); }

#endif

/* A library program without privilege, under the five regions of kit/regions.c: printf, malloc and qsort as ever, and
   six things that it may not do. The handlers of its faults are privileged: they keep what was refused, and go on by
   longjmp. */
#include <setjmp.h>
#include <stdint.h>
#include <stdio.h>
#include <stdlib.h>

#include "device.h"
#include "registers.h"

#define FIRST_WORD (*(volatile uint32_t *)0x00000000u) /* of the vector table, in flash */
#define BESIDE_THE_DEVICE (*(volatile uint32_t *)0x40000020u)

/* What an exception's entry pushes. */
struct frame {
    uint32_t r0, r1, r2, r3, r12, lr, pc, xpsr;
};

extern char __heap_end[], __stack_bottom[]; /* link.ld: the guard is between them */

static jmp_buf before;
static volatile uint32_t refused, address; /* CFSR, and MMFAR or BFAR */
static struct frame way_back __attribute__((aligned(8)));
static volatile uint32_t depth;

void MemManage_Handler(void);
void BusFault_Handler(void);

/* Returns to Thread mode by a frame of its own, wherever the process stack is: longjmp sets SP anew. */
static void go_back(uint32_t status, uint32_t where)
{
    refused = status;
    address = where;
    CFSR = status;
    way_back = (struct frame){.r0 = (uint32_t)before, .r1 = 1, .pc = (uint32_t)longjmp & ~1u, .xpsr = 1u << 24};
    __asm volatile("msr psp, %0" ::"r"(&way_back) : "memory");
}

void MemManage_Handler(void)
{
    go_back(CFSR, MMFAR);
}

void BusFault_Handler(void)
{
    go_back(CFSR, BFAR);
}

static void store_to_flash(void)
{
    FIRST_WORD = 0;
}

/* BX LR, in RAM. */
static void execute_ram(void)
{
    static uint16_t code[] = {0x4770};
    ((void (*)(void))((uintptr_t)code | 1))();
}

static void store_beside_the_device(void)
{
    BESIDE_THE_DEVICE = 0;
}

static void read_a_system_register(void)
{
    (void)CFSR;
}

static void read_the_guard(void)
{
    (void)*(volatile char *)__heap_end;
}

static void recurse_without_end(void)
{
    volatile char local[100];
    local[0] = 1;
    if (++depth != 0)
        recurse_without_end();
    depth += (uint32_t)local[0];
}

static const char *name_of(uint32_t status)
{
    return status & 0xFF00 ? "BusFault" : "MemManage";
}

static void print_address(void)
{
    if (address >= (uint32_t)__heap_end && address < (uint32_t)__stack_bottom)
        printf(" in the guard");
    else
        printf(" at %08X", (unsigned)address);
}

/* Whether the exception's frame had room above the guard depends on the compiler, so MSTKERR isn't printed. */
static void print_fault(const char *name)
{
    printf("%s: %s, CFSR %04X", name, name_of(refused), (unsigned)(refused & ~CFSR_MSTKERR));
    if ((refused & (CFSR_MMARVALID | CFSR_BFARVALID)) != 0)
        print_address();
    printf("\n");
}

/* Carries out what is refused. Returns 0 where it wasn't. */
static int attempt(const char *name, void (*what)(void))
{
    if (setjmp(before) != 0) {
        print_fault(name);
        return 1;
    }
    what();
    printf("%s: not refused\n", name);
    return 0;
}

static int by_value(const void *one, const void *other)
{
    return *(const int *)one - *(const int *)other;
}

/* What the regions grant: flash, RAM with heap and stack, and the words of the device. */
static int use_the_library(void)
{
    int *numbers = malloc(8 * sizeof *numbers), sorted = 1;
    for (int at = 0; at < 8; at++)
        numbers[at] = at * 5 % 8;
    qsort(numbers, 8, sizeof *numbers, by_value);
    for (int at = 0; at < 8; at++)
        sorted &= numbers[at] == at;
    printf("sorted: %d to %d, the clock %s\n", numbers[0], numbers[7], TICK != 0 ? "goes" : "stands");
    free(numbers);
    return sorted;
}

int main(void)
{
    int well = use_the_library(), count = 0;
    count += attempt("a store to flash", store_to_flash);
    count += attempt("code in RAM", execute_ram);
    count += attempt("a store beside the device", store_beside_the_device);
    count += attempt("a system register", read_a_system_register);
    count += attempt("a read of the guard", read_the_guard);
    count += attempt("recursion without end", recurse_without_end);
    return !(well && count == 6);
}

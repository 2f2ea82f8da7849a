/* Regions of the MPU, and a program without privilege. A program that this file is linked with is confined from its
   constructors on, and uses the process stack:

   region 0    flash, which it may read and execute
   region 1    RAM, which it may read and write, and never execute
   region 2    the guard below the stack, which no code may access
   region 3    the words OUT and TICK of the device window (32 bytes, the least that a region can have)
   region 4    the stack of the handlers, which are privileged, and whose other accesses the default map grants

   MemManage, BusFault and UsageFault are enabled. The sizes of flash, of RAM and of the guard are powers of two. */
#include "device.h"
#include "registers.h"

#define HANDLER_STACK_SIZE 1024u

#ifdef __cplusplus
extern "C" {
#endif

extern char __flash_begin[], __flash_size[], __ram_begin[], __ram_size[], __guard_size[], __heap_end[]; /* link.ld */

static char handler_stack[HANDLER_STACK_SIZE] __attribute__((aligned(HANDLER_STACK_SIZE)));

void _confine(void);

static void set_region(uint32_t number, uintptr_t begin, uint32_t size, uint32_t attributes)
{
    MPU_RBAR = begin | MPU_RBAR_VALID | number;
    MPU_RASR = attributes | RASR_SIZE(__builtin_ctz(size) - 1) | RASR_ENABLE;
}

/* Goes on as unprivileged code with the same stack, now the process stack. */
static void drop_privilege(void)
{
    __asm volatile("mov r0, sp\n\t"
                   "msr psp, r0\n\t"
                   "movs r0, #2\n\t" /* SPSEL */
                   "msr control, r0\n\t"
                   "isb\n\t"
                   "msr msp, %0\n\t"
                   "movs r0, #3\n\t" /* SPSEL and nPRIV */
                   "msr control, r0\n\t"
                   "isb" ::"r"(handler_stack + HANDLER_STACK_SIZE)
                   : "r0", "memory");
}

void _confine(void)
{
    set_region(0, (uintptr_t)__flash_begin, (uint32_t)__flash_size, RASR_READ_ONLY);
    set_region(1, (uintptr_t)__ram_begin, (uint32_t)__ram_size, RASR_ALL_ACCESS | RASR_XN);
    set_region(2, (uintptr_t)__heap_end, (uint32_t)__guard_size, RASR_NO_ACCESS | RASR_XN);
    set_region(3, (uintptr_t)&OUT, 32, RASR_ALL_ACCESS | RASR_XN);
    set_region(4, (uintptr_t)handler_stack, HANDLER_STACK_SIZE, RASR_PRIVILEGED_ACCESS | RASR_XN);
    SHCSR = SHCSR_MEMFAULTENA | SHCSR_BUSFAULTENA | SHCSR_USGFAULTENA;
    MPU_CTRL = MPU_CTRL_PRIVDEFENA | MPU_CTRL_ENABLE;
    synchronize();
    drop_privilege();
}

#ifdef __cplusplus
}
#endif

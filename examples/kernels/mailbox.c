/* Two unprivileged tasks and a mailbox: 32 bytes of RAM by which the writer reaches the reader, and no others. A task
   has three regions: its code, its memory with its stack, and the mailbox. The mailbox is the beginning of the reader's
   block; of two regions that have an address the one with the greater number decides, so the reader may only read it.
   A task runs until it yields; the switch is PendSV's, as in round_robin. */
#include "console.h"
#include "mailbox.h"
#include "registers.h"

#define BLOCK 512
#define TASKS 2
#define REGIONS 3

/* SIZE of a region of 256 bytes, of one of 512, and of one of 32. */
#define SIZE_CODE 7
#define SIZE_BLOCK 8
#define SIZE_MAILBOX 4

/* SIZE of the writer's region of the mailbox: overlap.c has another. */
#ifndef SIZE_WRITERS_MAILBOX
#define SIZE_WRITERS_MAILBOX SIZE_MAILBOX
#endif

struct region {
    uint32_t rbar, rasr;
};

struct task {
    uint32_t psp, r4_to_r11[8]; /* pend_sv reads and writes these, so they come first */
    struct region regions[REGIONS];
    const char *name;
    int has_ended;
};

/* What an exception's entry pushes. */
struct frame {
    uint32_t r0, r1, r2, r3, r12, lr, pc, xpsr;
};

/* The blocks, from the linker script: the mailbox comes first in block_b. */
extern uint32_t block_a[BLOCK / 4], block_b[BLOCK / 4];
volatile uint32_t mailbox[MAILBOX_WORDS] __attribute__((section(".bss.mailbox")));

static struct task tasks[TASKS];
struct task *current; /* none before the first switch */

void serve(struct frame *frame);
struct task *choose_task(void);

/* Makes a task that begins with its first instruction at the first switch to it. */
static void make_task(struct task *task, const char *name, void (*code)(void), uint32_t *block, uint32_t mail_rasr)
{
    struct frame *frame = (struct frame *)(block + BLOCK / 4) - 1;
    uint32_t start = (uint32_t)code & ~0xFFu;
    frame->pc = (uint32_t)code & ~1u;
    frame->xpsr = 1u << 24; /* T */
    task->psp = (uint32_t)frame;
    task->regions[0] = (struct region){start | MPU_RBAR_VALID | 0, RASR_READ_ONLY | RASR_SIZE(SIZE_CODE) | RASR_ENABLE};
    task->regions[1] = (struct region){(uint32_t)block | MPU_RBAR_VALID | 1,
                                       RASR_XN | RASR_ALL_ACCESS | RASR_SIZE(SIZE_BLOCK) | RASR_ENABLE};
    task->regions[2] = (struct region){(uint32_t)mailbox | MPU_RBAR_VALID | 2, RASR_XN | mail_rasr | RASR_ENABLE};
    task->name = name;
}

static void pend_switch(void)
{
    ICSR = ICSR_PENDSVSET;
}

static void end_task(struct task *task)
{
    task->has_ended = 1;
    put_text(task->name);
    put_text(" has ended\n");
    pend_switch();
}

/* Sets the regions of the other task, or of the same one where the other has ended, and begins its turn. */
struct task *choose_task(void)
{
    struct task *next = current == &tasks[0] ? &tasks[1] : &tasks[0];
    if (next->has_ended)
        next = current;
    if (next->has_ended) {
        put_text("all have ended\n");
        __asm volatile("bkpt 0");
    }
    current = next;
    for (int at = 0; at < REGIONS; at++) {
        MPU_RBAR = current->regions[at].rbar;
        MPU_RASR = current->regions[at].rasr;
    }
    synchronize();
    return current;
}

/* Does what the number of the SVC instruction asks for: its low byte is two bytes before the return address. */
void serve(struct frame *frame)
{
    switch (*(const uint8_t *)(frame->pc - 2)) {
    case 0: OUT = frame->r0; break;
    case 1: pend_switch(); break;
    default: end_task(current); break;
    }
}

int main(void)
{
    make_task(&tasks[0], "writer", writer, block_a, RASR_ALL_ACCESS | RASR_SIZE(SIZE_WRITERS_MAILBOX));
    make_task(&tasks[1], "reader", reader, block_b, RASR_READ_ONLY | RASR_SIZE(SIZE_MAILBOX));
    SHPR(PEND_SV) = 0xF0;
    MPU_CTRL = MPU_CTRL_PRIVDEFENA | MPU_CTRL_ENABLE;
    pend_switch();
    synchronize();
    for (;;)
        ;
}

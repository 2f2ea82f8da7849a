/* A plugin of QEMU that writes, for each instruction, the lines that marm writes: its fetch, a halfword a line, and its
   loads and stores, an unaligned one byte by byte. It knows nothing of the MPU, so it writes what they are where the
   MPU is off. It ends QEMU at a BKPT, with marm's line of that stop, and after a number of steps:
   -plugin plugin.so,steps=N. */
#include <qemu-plugin.h>
#include <stdint.h>
#include <stdio.h>
#include <stdlib.h>
#include <string.h>
#include <unistd.h>

QEMU_PLUGIN_EXPORT int qemu_plugin_version = QEMU_PLUGIN_VERSION;

static char page[1 << 16];
static size_t used;
/* The digits of the tick, from `first` to 23: at most 16. What is after them is copied too, and written over. */
static char digits[40];
static int first = 23;
static long left = 1000000;
/* The two digits of each byte, as they are in memory. */
static uint16_t pairs[256];

static void hand_on(void) {
    if (write(1, page, used) < 0) exit(1);
    used = 0;
}

static void count(void) {
    int at = 22;
    while (digits[at] == '9') digits[at--] = '0';
    if (at < first) { digits[at] = '1'; first = at; } else digits[at]++;
}

static inline void line(char kind, uint32_t address, char size) {
    if (used > sizeof page - 64) hand_on();
    char *p = page + used;
    memcpy(p, digits + first, 16);
    p += 23 - first;
    p[0] = ' '; p[1] = kind; p[2] = ' ';
    for (int byte = 0; byte < 4; byte++) memcpy(p + 3 + 2 * byte, &pairs[address >> (24 - 8 * byte) & 255], 2);
    memcpy(p + 11, " 0 p ok off\n", 12);
    p[12] = size;
    used = p + 23 - page;
}

/* An instruction is about to be carried out; `what` has its address, and in bit 0 whether it has two halfwords. */
static void fetched(unsigned processor, void *what) {
    (void)processor;
    if (left-- == 0) { hand_on(); exit(0); }
    count();
    uint32_t address = (uintptr_t)what & ~1u;
    line('F', address, '2');
    if ((uintptr_t)what & 1) line('F', address + 2, '2');
}

/* A BKPT with this number, whose fetch is written. */
static void stopped(unsigned processor, void *number) {
    (void)processor;
    hand_on();
    used = (size_t)sprintf(page, "stop breakpoint %u\n", (unsigned)(uintptr_t)number);
    hand_on();
    exit(0);
}

/* A store exclusive makes a load too in QEMU, which compares first; `exclusive` says that the access is of one. */
static void accessed(unsigned processor, qemu_plugin_meminfo_t how, uint64_t address, void *exclusive) {
    (void)processor;
    char kind = qemu_plugin_mem_is_store(how) ? 'S' : 'L';
    unsigned size = 1u << qemu_plugin_mem_size_shift(how);
    if (exclusive != NULL && kind == 'L') return;
    if ((address & (size - 1)) == 0) line(kind, address, '0' + size);
    else for (unsigned byte = 0; byte < size; byte++) line(kind, address + byte, '1');
}

/* STREX, STREXB, STREXH by their two halfwords. */
static int is_store_exclusive(unsigned first, unsigned second) {
    return (first & 0xFFF0) == 0xE840 || ((first & 0xFFF0) == 0xE8C0 && (second & 0xE0) == 0x40);
}

/* The first halfword of an instruction says its size: at the end of a page QEMU 7.2 counts what it looks at too. */
static void translated(qemu_plugin_id_t id, struct qemu_plugin_tb *block) {
    (void)id;
    for (size_t number = 0; number < qemu_plugin_tb_n_insns(block); number++) {
        struct qemu_plugin_insn *one = qemu_plugin_tb_get_insn(block, number);
        const uint8_t *bytes = qemu_plugin_insn_data(one);
        int is_long = bytes[1] >= 0xE8;
        uintptr_t what = qemu_plugin_insn_vaddr(one) | (uintptr_t)is_long;
        void *exclusive =
            is_long && is_store_exclusive(bytes[0] | bytes[1] << 8, bytes[2] | bytes[3] << 8) ? &left : NULL;
        qemu_plugin_register_vcpu_insn_exec_cb(one, fetched, QEMU_PLUGIN_CB_NO_REGS, (void *)what);
        if (bytes[1] == 0xBE)
            qemu_plugin_register_vcpu_insn_exec_cb(one, stopped, QEMU_PLUGIN_CB_NO_REGS, (void *)(uintptr_t)bytes[0]);
        qemu_plugin_register_vcpu_mem_cb(one, accessed, QEMU_PLUGIN_CB_NO_REGS, QEMU_PLUGIN_MEM_RW, exclusive);
    }
}

QEMU_PLUGIN_EXPORT int qemu_plugin_install(qemu_plugin_id_t id, const qemu_info_t *info, int words, char **word) {
    (void)info;
    for (int number = 0; number < words; number++)
        if (strncmp(word[number], "steps=", 6) == 0) left = atol(word[number] + 6);
    for (int byte = 0; byte < 256; byte++) {
        char text[3];
        snprintf(text, sizeof text, "%02X", byte);
        memcpy(&pairs[byte], text, 2);
    }
    qemu_plugin_register_vcpu_tb_trans_cb(id, translated);
    return 0;
}

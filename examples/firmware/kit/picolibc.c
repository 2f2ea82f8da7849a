/* What picolibc takes from a program beside syscalls.c: three streams, and where the variables of the thread are. */
#include "device.h"
#include <stdio.h>
#include <sys/stat.h>
#include <sys/times.h>

extern char __tls_base[]; /* link.ld */
void _set_tls(void *variables);

static int put(char byte, FILE *stream)
{
    (void)stream;
    OUT = (unsigned char)byte;
    return (unsigned char)byte;
}

static int get(FILE *stream)
{
    (void)stream;
    return EOF;
}

static FILE console = FDEV_SETUP_STREAM(put, get, NULL, _FDEV_SETUP_RW);
FILE *const stdin = &console;
FILE *const stdout = &console;
FILE *const stderr = &console;

static void begin(void)
{
    _set_tls(__tls_base);
}

/* Before any constructor. */
__attribute__((section(".preinit_array"), used)) static void (*const begin_first)(void) = begin;

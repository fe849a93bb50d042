/* Semihosting: the emulator's standard input and output, in blocks. For speed; no serial line, no hardware. */
#include "serial.h"

enum { SYS_OPEN = 1, SYS_WRITE = 5, SYS_READ = 6, SYS_EXIT = 24, APPLICATION_EXIT = 0x20026 };
static int in, out;
static uint8_t received[256], sent[256];
static uint32_t received_at, received_count, sent_count;

static int semihosting(int operation, const void *block)
{
    register int r0 __asm("r0") = operation;
    register const void *r1 __asm("r1") = block;
    __asm volatile("bkpt 0xAB" : "+r"(r0) : "r"(r1) : "memory");
    return r0;
}

void serial_open(void)
{
    const uintptr_t read[] = {(uintptr_t)":tt", 0, 3}, write[] = {(uintptr_t)":tt", 4, 3};
    in = semihosting(SYS_OPEN, read);
    out = semihosting(SYS_OPEN, write);
}

void serial_flush(void)
{
    const uintptr_t block[] = {out, (uintptr_t)sent, sent_count};
    if (sent_count != 0)
        semihosting(SYS_WRITE, block);
    sent_count = 0;
}

uint8_t serial_get(void)
{
    if (received_at == received_count) {
        const uintptr_t block[] = {in, (uintptr_t)received, sizeof received};
        serial_flush();
        received_at = 0;
        received_count = sizeof received - semihosting(SYS_READ, block);
        if (received_count == 0)
            semihosting(SYS_EXIT, (const void *)APPLICATION_EXIT); /* the bench has gone */
    }
    return received[received_at++];
}

void serial_put(uint8_t byte)
{
    sent[sent_count++] = byte;
    if (sent_count == sizeof sent)
        serial_flush();
}

/* The protocol of docs/UNIT.md, on this side of the line. */
#include "bench.h"
#include "kernel.h"
#include "serial.h"

static uint32_t left; /* bytes of the block */

void greet(void)
{
    serial_open();
    for (const char *sign = "osek-unit 1 sloth on mps2-an385\n"; *sign != 0; sign++)
        serial_put(*sign);
}

void open_block(void)
{
    left = 0;
    for (uint32_t shift = 0; shift < 32; shift += 8)
        left |= (uint32_t)serial_get() << shift;
}

bool more_events(void)
{
    if (left == 0)
        open_block();
    return left > 0;
}

uint32_t read_number(void)
{
    uint32_t value = 0;
    for (uint32_t shift = 0;; shift += 7) {
        uint8_t group = serial_get();
        left--;
        value |= (uint32_t)(group & 127) << shift;
        if (group < 128)
            return value;
    }
}

void send_answer(uint8_t status, uint8_t runner, uint8_t level, bool begun)
{
    serial_put(status);
    serial_put(runner);
    serial_put(level);
    serial_put(begun);
}

void end_run(void)
{
    for (uint32_t b = 0; b < body_count; b++) {
        serial_put(bodies[b].lost & 255);
        serial_put(bodies[b].lost >> 8);
    }
    serial_flush();
    SCB_AIRCR = AIRCR_RESET;
    for (;;)
        ;
}

/* A unit in C. osek_run is the reference: a simulator of your own takes its place. */
#include <osek.h>
#include <stdio.h>
#include <stdlib.h>

static uint8_t config[1 << 20], trace[1 << 20], out[OSEK_OUTPUT_MAX];

static size_t block(uint8_t *to)
{
    uint8_t n[4];
    fflush(stdout);
    if (fread(n, 1, 4, stdin) != 4)
        exit(0);
    return fread(to, 1, n[0] | n[1] << 8 | n[2] << 16 | (size_t)n[3] << 24, stdin);
}

static void refuse(uint64_t result)
{
    uint32_t place = osek_place(result);
    uint8_t refused[] = {255, osek_refusal(result), 0, 0, place, place >> 8, place >> 16, place >> 24};
    fwrite(refused, 1, sizeof refused, stdout);
}

int main(void)
{
    for (;;) {
        /* a Line that names no ISR: status 3, and who runs since the fresh start */
        uint8_t no_effect[] = {7, 255, 255, 255, 255, 15};
        printf("osek-unit 1 the sample in C\n");
        size_t config_len = block(config), trace_len = 0, events_len, sent = 0;
        uint64_t result = osek_run(config, config_len, no_effect, sizeof no_effect, out, sizeof out);
        uint8_t fresh[] = {0, out[1], out[2], out[1] != OSEK_IDLE};
        if (osek_refusal(result) != 0)
            refuse(result);
        else
            fwrite(fresh, 1, sizeof fresh, stdout);
        while ((events_len = block(trace + trace_len)) != 0) {
            if (osek_refusal(result) != 0)
                continue;
            trace_len += events_len;
            result = osek_run(config, config_len, trace, trace_len, out, sizeof out);
            if (osek_refusal(result) != 0)
                refuse(result);
            else
                fwrite(out + OSEK_ANSWER_SIZE * sent, OSEK_ANSWER_SIZE, osek_events(result) - sent, stdout);
            sent = osek_events(result);
        }
        if (osek_refusal(result) == 0)
            fwrite(out + OSEK_ANSWER_SIZE * osek_events(result), 2, config[1], stdout);
    }
}

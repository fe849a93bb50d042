/* Bench host: runs a trace over a configuration, both from files, and prints the listing. Everything about the kernel
 * comes from osek_run; here are only the files and the lines. */
#include "osek.h"

#include <stdio.h>
#include <string.h>

/* Refusals of the host itself, place 0: a file that can't be read. */
enum { HOST_CONFIG_UNREADABLE = 40, HOST_TRACE_UNREADABLE = 41 };

/* Exit statuses. */
enum { LISTED = 0, REFUSED = 1, BAD_COMMAND_LINE = 2, OUTPUT_FAILED = 3 };

static const char usage[] =
    "usage: osek_host CONFIG TRACE\n"
    "       osek_host [-h | --help | --version]\n"
    "\n"
    "Runs the trace in the file TRACE over the configuration in the file CONFIG and prints, event by event, its index,\n"
    "code, status, the running body (- when idle), the level and the begun mark; then `lost BODY COUNT` for every body\n"
    "with lost activations. One of the files may be -, standard input. A refused run prints only `refused CODE PLACE`;\n"
    "osek.h has the codes, 40 and 41 say that CONFIG or TRACE can't be read.\n"
    "\n"
    "Exit status: 0 a listing, 1 a refusal, 2 a bad command line, 3 standard output could not be written.\n";

/* One byte more than the limits, so that a file that is too long is seen to be so. */
static uint8_t config[OSEK_CONFIG_MAX + 1];
static uint8_t trace[OSEK_TRACE_MAX + 1];
static uint8_t out[OSEK_OUTPUT_MAX];

static int is(const char *word, const char *other) { return strcmp(word, other) == 0; }

/* Reads at most size bytes of a file; 0 if it can't be read, be it in its middle. */
static int read_file(const char *name, uint8_t *bytes, size_t size, size_t *len)
{
    FILE *file = is(name, "-") ? stdin : fopen(name, "rb");
    if (file == NULL)
        return 0;
    *len = fread(bytes, 1, size, file);
    int readable = !ferror(file);
    if (file != stdin)
        fclose(file);
    return readable;
}

/* The offset after the number at `at`. */
static size_t skip_number(size_t at)
{
    while (trace[at] >= 128)
        at++;
    return at + 1;
}

/* The offset after the event at `at`; the run has accepted the trace, so its code is one byte. */
static size_t skip_event(size_t at)
{
    uint8_t code = trace[at++];
    if (code == OSEK_EVENT_FINISH || code == OSEK_EVENT_TICK)
        return at;
    at = skip_number(at);
    return code == OSEK_EVENT_START || code == OSEK_EVENT_SET ? skip_number(at) : at;
}

static void print_listing(uint32_t events)
{
    puts("step event status runner level begun");
    size_t at = 0;
    for (uint32_t i = 0; i < events; i++) {
        const uint8_t *answer = out + (size_t)i * OSEK_ANSWER_SIZE;
        printf("%u %u %u ", (unsigned)i, (unsigned)trace[at], (unsigned)answer[0]);
        if (answer[1] == OSEK_IDLE)
            fputs("-", stdout);
        else
            printf("%u", (unsigned)answer[1]);
        printf(" %u %u\n", (unsigned)answer[2], (unsigned)answer[3]);
        at = skip_event(at);
    }
    unsigned bodies = config[1];
    for (unsigned body = 0; body < bodies; body++) {
        const uint8_t *loss = out + (size_t)events * OSEK_ANSWER_SIZE + (size_t)body * OSEK_LOSS_SIZE;
        unsigned count = loss[0] + 256u * loss[1];
        if (count > 0)
            printf("lost %u %u\n", body, count);
    }
}

static int refuse(uint32_t code, uint32_t place)
{
    printf("refused %u %u\n", (unsigned)code, (unsigned)place);
    return REFUSED;
}

static int bench(const char *config_name, const char *trace_name)
{
    size_t config_len, trace_len;
    if (!read_file(config_name, config, sizeof config, &config_len))
        return refuse(HOST_CONFIG_UNREADABLE, 0);
    if (!read_file(trace_name, trace, sizeof trace, &trace_len))
        return refuse(HOST_TRACE_UNREADABLE, 0);
    uint64_t result = osek_run(config, config_len, trace, trace_len, out, sizeof out);
    if (osek_refusal(result) != 0)
        return refuse(osek_refusal(result), osek_place(result));
    print_listing(osek_events(result));
    return LISTED;
}

int main(int argc, char **argv)
{
    int status = LISTED;
    if (argc == 2 && (is(argv[1], "-h") || is(argv[1], "--help"))) {
        fputs(usage, stdout);
    } else if (argc == 2 && is(argv[1], "--version")) {
        puts("osek_host " OSEK_VERSION);
    } else if (argc == 3 && !(is(argv[1], "-") && is(argv[2], "-"))) {
        status = bench(argv[1], argv[2]);
    } else {
        fputs(usage, stderr);
        return BAD_COMMAND_LINE;
    }
    if (fflush(stdout) != 0 || ferror(stdout)) {
        fputs("osek_host: standard output could not be written\n", stderr);
        return OUTPUT_FAILED;
    }
    return status;
}

/*
 * OSEK OS reference, classes BCC1 and ECC1, with OSEKtime's time-triggered tasks above them: from a configuration and a
 * trace of events to who runs after each event.
 *
 * Seven functions: osek_run, osek_verdict for the answers that a unit recorded, osek_salvage for damaged traces, osek_oil for
 * configurations in OIL, osek_draw for drawn traces, osek_wait, which says how long a body waits to begin, and osek_misses,
 * which lists missed deadlines. They allocate nothing, keep nothing between calls and never fail in another way than by the
 * refusals below: any bytes may be handed to them. They may be called from several threads at once, each with outputs of its
 * own; they may share their inputs.
 *
 *     static uint8_t out[OSEK_OUTPUT_MAX];
 *     uint64_t result = osek_run(config, config_len, trace, trace_len, out, sizeof out);
 *     if (osek_refusal(result) != 0)
 *         printf("refused %u %u\n", (unsigned)osek_refusal(result), (unsigned)osek_place(result));
 *     else
 *         ... osek_events(result) answers of four bytes, then two bytes a body ...
 *
 * For C99, C++98 and later, on x86-64 Linux. Link with libosek.a or libosek.so (`pkg-config --cflags --libs osek`).
 *
 * Words: a body is a task or a category 2 interrupt routine (ISR); bodies, resources and schedule tables are each
 * numbered from 0 in the order of the configuration. A greater priority wins; on equal current priority the body that
 * holds a resource goes first. An extended task has 32 event bits and may wait for some of them; they are cleared
 * when it is activated from suspended. A waiting task is not suspended, and does not run before one of the bits that
 * it waits for is set. A time-triggered task is started by the entries of one table alone. It begins at once, preempts
 * all that runs, another time-triggered task too, and runs at level 201; it makes no call but Finish. Of those that have
 * begun the latest runs.
 *
 * NUMBERS. Configuration and trace are rows of numbers, 0 to 4,294,967,295, in LEB128: one to five groups of seven
 * bits, lowest group first, the top bit set on every byte but the last. Only the shortest form is accepted: 127 is
 * 7F, 128 is 80 01.
 *
 * CONFIGURATION, in this order:
 *     version            1; 2, which also counts lost lines; or 3, which counts them too and has deadlines
 *     body count         1 to 32
 *     per body           kind (0 task, 1 ISR, 2 extended task, 3 time-triggered task), priority (1 to 200, each used
 *                        once; of kind 3 it has no other use), autostart (0 or 1; kinds 1 and 3: 0), and in version 3
 *                        deadline (1 to 65,535 ticks, 0 for none; kind 1: 0), which osek_misses alone looks at
 *     resource count     0 to 16
 *     per resource       its users, bit b for body b; not 0, none of kind 3. The ceiling is their greatest priority.
 *     table count        0 to 8
 *     per table          period (1 to 65,535), entry count (1 to 16; 64 in all tables together), then
 *       per entry        offset (below the period), task (the number of a body that is a task);
 *                        entries rise by offset, then by task, and none stands twice; one table at most has
 *                        entries of kind 3, and only those, each at an offset of its own
 *
 * TRACE: events one after the other, each its code and then its arguments. Any number may stand as an argument; one
 * that names nothing gets a status. The events, with the statuses other than 0 in the order in which they are checked:
 *     1 Activate task         makes the task ready                                  2, 3, 4
 *     2 Finish                the running body ends                                 2, 6
 *     3 Chain task            the running task ends and the named one is ready      2, 3, 6, 4
 *     4 Get resource          the running body takes it                             2, 3, 33, 1
 *     5 Release resource      the running body gives it back                        2, 3, 5
 *     6 Tick                  every started table counts one tick                   -
 *     7 Line isr              the interrupt is requested                            3, 4
 *     8 Start table, delay    its entry at offset o is due at tick delay + o, then  2, 3, 8, 7
 *                             every period
 *     9 Stop table            no entry of it is due any more                        2, 3, 5
 *    10 Wait mask             the running task waits for one of these event bits;   2, 1, 6
 *                             it goes on at once if one is set; mask 0: for ever
 *    11 Set task, mask        the task gets these event bits; one that waits for    2, 3, 1, 7
 *                             one of them is resumed
 *    12 Clear mask            the running task loses these event bits               2, 1
 * A mask is a number, bit i being worth 2^i.
 */
#ifndef OSEK_H
#define OSEK_H

#include <stddef.h>
#include <stdint.h>

#ifdef __cplusplus
extern "C" {
#endif

/* The first number changes when a program has to be compiled or linked anew, the second with what the calls answer or
 * offer, the last with everything else. CHANGELOG.md says what each one brought. */
#define OSEK_VERSION "1.6.0"

/* Sizes in bytes. Longer inputs are refused; an output of OSEK_OUTPUT_MAX suffices for every run, which is proved as
 * `room_enough` in crates/run/proofs/Theorems.antt. */
#define OSEK_CONFIG_MAX 4096
#define OSEK_TRACE_MAX 8192
#define OSEK_OUTPUT_MAX 32832

/* What suffices for the list of every salvage; OSEK_TRACE_MAX does for its events. A trace of OSEK_TRACE_MAX bytes that
 * alternates between a byte to drop and an event of one byte needs as much. */
#define OSEK_STRETCHES_MAX 12224

/* The output of an accepted run with e events and b bodies takes 4 e + 2 b bytes:
 *     byte 4 i        status of event i
 *     byte 4 i + 1    the body that runs after it, OSEK_IDLE if none does
 *     byte 4 i + 2    the level: the running body's current priority, 201 of a time-triggered task, 0 when idle
 *     byte 4 i + 3    1 if the event made a body begin from its start, otherwise 0 (a resumed body: 0)
 *     byte 4 e + 2 j, 4 e + 2 j + 1
 *                     low and high byte of the losses of body j: how often an entry was due while its task was not
 *                     suspended; from version 2 on also how often a Line got OSEK_E_OS_LIMIT; stays at 65,535 once there
 */
#define OSEK_ANSWER_SIZE 4
#define OSEK_LOSS_SIZE 2
#define OSEK_IDLE 255

/* Event codes. */
enum {
    OSEK_EVENT_ACTIVATE = 1,
    OSEK_EVENT_FINISH = 2,
    OSEK_EVENT_CHAIN = 3,
    OSEK_EVENT_GET = 4,
    OSEK_EVENT_RELEASE = 5,
    OSEK_EVENT_TICK = 6,
    OSEK_EVENT_LINE = 7,
    OSEK_EVENT_START = 8,
    OSEK_EVENT_STOP = 9,
    OSEK_EVENT_WAIT = 10,
    OSEK_EVENT_SET = 11,
    OSEK_EVENT_CLEAR = 12
};

/* Statuses, with OSEK's names and numbers; the last one's are ours. An event with a status other than 0 changes nothing,
 * but that from version 2 on a Line with OSEK_E_OS_LIMIT adds 1 to the losses of its ISR. */
enum {
    OSEK_E_OK = 0,          /* done */
    OSEK_E_OS_ACCESS = 1,   /* Get: the resource is held: by the running body itself, since 33 comes first;
                               Wait, Clear: the running body is not an extended task; Set: the named task is not */
    OSEK_E_OS_CALLEVEL = 2, /* no body runs, or (but for Finish) a time-triggered task does; Chain: nor when an ISR
                               runs */
    OSEK_E_OS_ID = 3,       /* no such task, resource, table or (Line) ISR; an ISR's number is no task, and for
                               Activate and Chain a time-triggered task's is none */
    OSEK_E_OS_LIMIT = 4,    /* Activate, Chain: the task is ready, started or waiting (a task may chain itself);
                               Line: a request of this ISR waits already */
    OSEK_E_OS_NOFUNC = 5,   /* Release: not the running body's most recently taken resource; Stop: table is stopped */
    OSEK_E_OS_RESOURCE = 6, /* Finish, Chain, Wait: the running body holds a resource */
    OSEK_E_OS_STATE = 7,    /* Start: the table is started already; Set: the task is suspended */
    OSEK_E_OS_VALUE = 8,    /* Start: the delay is 0, or delay + the table's smallest offset is above 65,535 */
    OSEK_E_USER = 33        /* Get: the running body is not one of the resource's users; OSEK has no number for it */
};

/* Refusals. Unless stated, the place is the offset of the offending number; for an unreadable one, of the byte that made
 * it so. Checked in this order: OSEK_CONFIG_TOO_LONG, the configuration number by number, OSEK_TRACE_TOO_LONG, the trace
 * number by number, OSEK_OUTPUT_TOO_SHORT. Only the first one found is given. */
enum {
    OSEK_CONFIG_CUT = 1,           /* the configuration ends where a number, or the rest of one, is missing; place: its
                                      end, config_len */
    OSEK_CONFIG_NUMBER = 2,        /* a number above 4,294,967,295, place: its fifth byte; or not in its shortest form,
                                      place: its last byte, the superfluous 00 */
    OSEK_CONFIG_VERSION = 3,       /* the version is not 1, 2 or 3 */
    OSEK_CONFIG_COUNT = 4,         /* a count of bodies, resources, tables or entries outside its range */
    OSEK_CONFIG_FIELD = 5,         /* another field outside its range; an entry's task that is no task; a mask with a
                                      bit for a body of kind 3 */
    OSEK_CONFIG_PRIORITY_USED = 6, /* a priority that a body before has */
    OSEK_CONFIG_ENTRY_ORDER = 7,   /* an entry not after the one before it; place: its task's number */
    OSEK_CONFIG_ENTRY_TOTAL = 8,   /* an entry count that makes more than 64 in all */
    OSEK_CONFIG_LEFT_OVER = 9,     /* bytes after the last table; place: the first of them */
    OSEK_CONFIG_TOO_LONG = 10,     /* the configuration is over OSEK_CONFIG_MAX bytes; place: 0 */
    OSEK_CONFIG_OFFSET_USED = 13,  /* an entry with the offset of the one before it, where the task of either is of
                                      kind 3; place: its task's number; after 7 */
    OSEK_CONFIG_TABLE_MIXED = 14,  /* a table with tasks of kind 3 and others, or a second one with tasks of kind 3;
                                      place: the first task's number that makes it so; after 13 */
    OSEK_TRACE_TOO_LONG = 20,      /* the trace is over OSEK_TRACE_MAX bytes; place: 0 */
    OSEK_TRACE_CUT = 21,           /* as OSEK_CONFIG_CUT, in the trace; place: trace_len */
    OSEK_TRACE_NUMBER = 22,        /* as OSEK_CONFIG_NUMBER, in the trace, with the same places */
    OSEK_TRACE_EVENT = 23,         /* an event code that is not 1 to 12 */
    OSEK_OUTPUT_TOO_SHORT = 30     /* out_len is too small; place: the bytes needed */
};

/*
 * Runs a trace from the configuration's fresh start: autostart tasks are ready, the best one has begun, tables are
 * stopped, nothing is lost.
 *
 *     config, config_len    the configuration's bytes; only read
 *     trace, trace_len      the trace's bytes; only read. An empty trace is accepted and has 0 events.
 *     out, out_len          where the output goes. Must not overlap the inputs; may hold anything before the call.
 *
 * A pointer whose length is 0 may be null; no byte of it is touched. Where it is not 0, so many bytes are there.
 *
 * Result: refusal * 2^32 + place, or, with refusal 0, the number of events. Split it with the functions below.
 *
 * Left untouched: the inputs, always; all of out, if the run is refused; the bytes of out behind the output
 * (4 e + 2 b, above), if it is accepted.
 */
uint64_t osek_run(const uint8_t *config, size_t config_len,
                  const uint8_t *trace, size_t trace_len,
                  uint8_t *out, size_t out_len);

/*
 * Salvages a damaged trace: events are read one after the other, and where none can be read one byte is dropped and the
 * next is tried. What is kept is a readable trace; a readable trace is kept whole.
 *
 *     trace, trace_len            the trace's bytes; only read
 *     events, events_len          where the kept events go: the bytes of the trace that are not dropped, in their order
 *     stretches, stretches_len    where the dropped stretches are listed: for each, in order, the offset of its first
 *                                 byte in the trace and its length, as two numbers. Adjacent dropped bytes form one
 *                                 stretch, so at least one byte is kept between two of them.
 *
 * The outputs must not overlap each other or the trace. A pointer whose length is 0 may be null, as above.
 *
 * Result: refusal * 2^32 + place, or, with refusal 0, the list's length * 65,536 + the events' length. Checked in this
 * order: OSEK_TRACE_TOO_LONG; OSEK_OUTPUT_TOO_SHORT for the events; OSEK_OUTPUT_TOO_SHORT for the list, each time with
 * the bytes that this output needs as place. A refused call leaves both outputs untouched; an accepted one leaves the
 * bytes behind what it wrote.
 */
uint64_t osek_salvage(const uint8_t *trace, size_t trace_len,
                      uint8_t *events, size_t events_len,
                      uint8_t *stretches, size_t stretches_len);

/* Refusals of osek_wait, after those of osek_run but OSEK_OUTPUT_TOO_SHORT; checked in the order 35, 34, 31, 32; place 0. */
enum {
    OSEK_WAIT_NOT_WAITING = 31, /* the body does not wait to begin: it is suspended, or started and not requested again */
    OSEK_WAIT_RESOURCE = 32,    /* a resource is held, by whatever body */
    OSEK_WAIT_BODY = 34,        /* no body has this number */
    OSEK_WAIT_KIND = 35         /* the configuration has extended or time-triggered tasks */
};

/*
 * How long a body waits to begin: the number of Finish events that are accepted after the trace, if only such events
 * follow, until the one in which the body begins, that one included. A body waits to begin if it is ready, or if it is
 * a started ISR with a request waiting.
 *
 * The number is 1 to 63. It counts the other bodies of greater priority that are ready or started, a started ISR with a
 * request waiting twice, and the body's own first end if it is started.
 *
 *     config, config_len    as for osek_run
 *     trace, trace_len
 *     body                  the body's number
 *
 * Result: refusal * 2^32 + place, or, with refusal 0, the number of ends (osek_ends). Nothing is written. Some 42 KB of
 * stack are used.
 */
uint64_t osek_wait(const uint8_t *config, size_t config_len,
                   const uint8_t *trace, size_t trace_len,
                   uint32_t body);

/* How many misses a list has at most, and the bytes of each; OSEK_MISSES_MAX * OSEK_MISS_SIZE bytes suffice for every list.
 *     byte 3 i, 3 i + 1    low and high byte of the tick of miss i: the number of its Tick in the trace, from 1
 *     byte 3 i + 2         the task
 */
#define OSEK_MISSES_MAX 64
#define OSEK_MISS_SIZE 3

/*
 * Lists the deadlines that tasks miss. A task with a deadline that becomes ready after k Ticks of the trace, the present
 * event included, is due at Tick k + deadline; at the fresh start k is 0. It misses if it has not ended before that Tick: an
 * accepted Finish or Chain of its own ends it, Waiting does not. A Chain to itself ends it and makes it ready anew. It misses
 * once for each time that it became ready.
 *
 *     config, config_len    as for osek_run; versions 1 and 2 have no deadlines, and no misses
 *     trace, trace_len
 *     list, list_len        where the first OSEK_MISSES_MAX misses go, in order of time, then of body. Must not overlap the
 *                           inputs; may hold anything before the call.
 *
 * A pointer whose length is 0 may be null, as above.
 *
 * Result: refusal * 2^32 + place, or, with refusal 0, the count of all misses (osek_miss_count), listed or not. The refusals
 * are those of osek_run; OSEK_OUTPUT_TOO_SHORT is for a list too short for the misses that it gets, with the bytes needed as
 * place: OSEK_MISS_SIZE times the count, or times OSEK_MISSES_MAX if that is less. A refused call leaves list untouched; an
 * accepted one leaves the bytes behind what it wrote.
 */
uint64_t osek_misses(const uint8_t *config, size_t config_len,
                     const uint8_t *trace, size_t trace_len,
                     uint8_t *list, size_t list_len);

/* Refusals of an OIL text, with line and column. Given in reading order; OSEK_OIL_NO_RESOURCE after the whole text; then
 * OSEK_CONFIG_COUNT, OSEK_CONFIG_FIELD and OSEK_CONFIG_PRIORITY_USED in the order of a configuration's numbers, at line 0,
 * column 0; then OSEK_OUTPUT_TOO_SHORT. */
enum {
    OSEK_OIL_UNREADABLE = 60,  /* a sign that no word has; an unclosed comment, where it opens */
    OSEK_OIL_UNEXPECTED = 61,  /* a word that may not stand there; the closing brace where PRIORITY is missing; just past
                                  the last byte where the text breaks off */
    OSEK_OIL_UNKNOWN = 62,     /* a word of letters that is no object or attribute there */
    OSEK_OIL_TWICE = 63,       /* an earlier object's name; PRIORITY or AUTOSTART given twice */
    OSEK_OIL_NO_RESOURCE = 64  /* a RESOURCE attribute whose name no RESOURCE object bears */
};

/*
 * Reads a text in OSEK's Implementation Language and writes its configuration, version 1 and without tables:
 *     TASK name { PRIORITY = 2; AUTOSTART = TRUE; RESOURCE = r; };
 *     ISR name { PRIORITY = 9; };
 *     RESOURCE r { };
 * A body has one PRIORITY; AUTOSTART is for tasks, FALSE if absent; RESOURCE may stand any number of times, before or after
 * its object. Names, spaces and comments are C's, numbers are decimal digits. Bodies and resources are numbered as they stand.
 *
 *     text, text_len        the text's bytes, any number of them; only read
 *     config, config_len    where the configuration goes; OSEK_CONFIG_MAX bytes suffice
 *     place                 two numbers: line and column of the refusal, in bytes from 1, a line ending after its LF; 0 and 0
 *                           where no place is at fault, and where the text is accepted
 *
 * The outputs must not overlap each other or the text. A pointer whose length is 0 may be null, as above; place has no
 * length, and may not.
 *
 * Result: refusal * 2^32, for OSEK_OUTPUT_TOO_SHORT with the bytes needed added, or, with refusal 0, the configuration's
 * length. A refused call leaves config untouched; an accepted one leaves the bytes behind what it wrote.
 *
 * A text with fewer than 1,600 objects takes time in proportion to its length. One with more, which is refused whatever it
 * says, is gone through three times more for each further 1,600 of its objects: a megabyte of them takes half a second.
 * Names are told apart by a hash whose key is a hash of the whole text. Only a text that is made so that more than 2,048 of
 * its names fall together takes longer, as long as its length times the number of those names. The call needs 64 KB of
 * stack.
 */
uint64_t osek_oil(const uint8_t *text, size_t text_len,
                  uint8_t *config, size_t config_len,
                  uint64_t place[2]);

/* Refusals of a draw, at place 0. Checked in this order: OSEK_DRAW_START, OSEK_DRAW_NOTHING, OSEK_TRACE_TOO_LONG,
 * OSEK_OUTPUT_TOO_SHORT; for a count of 0, too. */
enum {
    OSEK_DRAW_START = 50,  /* the start value is 0 */
    OSEK_DRAW_NOTHING = 51 /* all weights are 0, or a limit is, needed or not */
};

#define OSEK_WEIGHTS 12
#define OSEK_LIMITS 4

/*
 * Draws a trace of exactly `count` events: from a start value, by Marsaglia's xorshift with shifts 13, 17 and 5 on 32
 * bits. A draw advances the generator and gives its new value. For each event one value is drawn; modulo the sum of the
 * weights it picks the first code whose running sum exceeds it, so that a code of weight 0 never occurs. Each argument is
 * one more value, modulo the limit of its sort, in the order of the arguments; a mask is a whole value. The same inputs
 * give the same bytes.
 *
 *     start         the start value, not 0
 *     weights       twelve, in the order of the event codes, OSEK_EVENT_ACTIVATE first
 *     limits        those of bodies (Activate, Chain, Line, Set), resources (Get, Release), tables (Start, Stop) and
 *                   delays (Start), none of them 0: a number drawn is below its limit
 *     count         how many events. At most OSEK_TRACE_MAX bytes are written; more are refused, and a count above
 *                   OSEK_TRACE_MAX at once.
 *     out, out_len  where the trace goes. Must not overlap the weights or the limits.
 *
 * Weights and limits are only read, and must not be null; out may be where out_len is 0.
 *
 * Result: refusal * 2^32 + place, or, with refusal 0, the length of the trace. A refused call leaves out untouched; an
 * accepted one leaves the bytes behind the trace.
 */
uint64_t osek_draw(uint32_t start, const uint16_t weights[OSEK_WEIGHTS], const uint16_t limits[OSEK_LIMITS],
                   uint32_t count, uint8_t *out, size_t out_len);

/* Refusal of a record, after those of osek_run; OSEK_OUTPUT_TOO_SHORT is never given. */
enum {
    OSEK_RECORD_LENGTH = 70 /* recorded_len is not a multiple of OSEK_ANSWER_SIZE, or there are more answers than
                               events; place: 0 */
};

/*
 * Judges a unit by the answers that it recorded: it passes exactly if they are those of osek_run, all of them. Losses are
 * not judged.
 *
 *     config, config_len        the configuration's bytes; only read
 *     trace, trace_len          the trace's bytes; only read
 *     recorded, recorded_len    OSEK_ANSWER_SIZE bytes for each event, as osek_run writes them, without the losses; only
 *                               read
 *
 * A pointer whose length is 0 may be null, as above. Nothing is written. The call needs 40 KB of stack.
 *
 * Result: UINT64_MAX, if the unit passes (osek_passed); the index, from 0, of the first event whose answer differs or is
 * missing (osek_failed_event); or refusal * 2^32 + place.
 */
uint64_t osek_verdict(const uint8_t *config, size_t config_len,
                      const uint8_t *trace, size_t trace_len,
                      const uint8_t *recorded, size_t recorded_len);

/* Whether a verdict is that the unit passes; ask before osek_refusal. */
static inline int osek_passed(uint64_t verdict) { return verdict == ~(uint64_t)0; }

/* The event at which a unit fails that neither passes nor is refused. */
static inline uint32_t osek_failed_event(uint64_t verdict) { return (uint32_t)verdict; }

/* The refusal in a result: one of OSEK_CONFIG_CUT to OSEK_RECORD_LENGTH, or 0 if the call is accepted. */
static inline uint32_t osek_refusal(uint64_t result) { return (uint32_t)(result >> 32); }

/* The place of a refusal. */
static inline uint32_t osek_place(uint64_t result) { return (uint32_t)result; }

/* The number of events of an accepted run. */
static inline uint32_t osek_events(uint64_t result) { return (uint32_t)result; }

/* The number of ends that a body waits for. */
static inline uint32_t osek_ends(uint64_t result) { return (uint32_t)result; }

/* The number of misses, and the number of those that the list has. */
static inline uint32_t osek_miss_count(uint64_t result) { return (uint32_t)result; }
static inline uint32_t osek_listed_count(uint64_t result) {
    return (uint32_t)(result < OSEK_MISSES_MAX ? result : OSEK_MISSES_MAX);
}

/* The length of an accepted text's configuration. */
static inline uint32_t osek_config_length(uint64_t result) { return (uint32_t)result; }

/* The length of an accepted draw's trace. */
static inline uint32_t osek_trace_length(uint64_t result) { return (uint32_t)result; }

/* The lengths of the events and of the list of an accepted salvage. */
static inline uint32_t osek_kept_length(uint64_t result) { return (uint32_t)(result & 65535); }
static inline uint32_t osek_stretches_length(uint64_t result) { return (uint32_t)(result >> 16); }

#ifdef __cplusplus
}
#endif

#endif

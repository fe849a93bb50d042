/* The kernel's data, and what its files do for each other. A body is an interrupt line of the controller, which schedules: ready is
 * pending, started is active. For extended tasks there are two more words, as Sleepy Sloth has them. */
#ifndef KERNEL_H
#define KERNEL_H

#include <stdbool.h>
#include "nvic.h"

enum { BODIES = 32, RESOURCES = 16, TABLES = 8, CELLS = 64, IDLE = 255 };
enum kind { TASK, ISR, EXTENDED, TIME_TRIGGERED };
enum status { DONE, ACCESS, CALL_LEVEL, ID, LIMIT, NO_FUNCTION, RESOURCE_HELD, STATE, VALUE, NOT_A_USER = 33 };

/* Priorities of the controller, called urgencies here; the smaller one wins. Steps of 4: with PRIGROUP 0 the lowest bit does not preempt.
 * BASEPRI takes 0 for no mask, so that the tick alone has it. */
enum { TICK_URGENCY = 0, TRIGGER_URGENCY = 4, EXECUTION_URGENCY = 8, FIRST_URGENCY = 12, URGENCY_STEP = 4 };

struct body {
    uint8_t kind, priority, urgency;
    bool autostart;
    uint16_t lost;
    uint32_t bits, awaited;         /* an extended task's event bits, and the mask that it waits for */
    uint32_t *own, *below, *common; /* stack pointers: where it waits, of whom it interrupted, of the common stack then */
};

struct resource { uint32_t users; uint8_t ceiling; /* an urgency */ };
struct cell { uint16_t offset, compare, counter; uint8_t task; bool on, turn; };
struct table { uint8_t first, end; bool runs; };

extern uint32_t version, body_count, resource_count, table_count;
extern struct body bodies[BODIES];
extern struct resource resources[RESOURCES];
extern struct table tables[TABLES];
extern struct cell cells[CELLS];
extern uint8_t level_at[FIRST_URGENCY / URGENCY_STEP + BODIES]; /* document 01's level of each urgency */
extern volatile uint32_t waiting, begun_bodies; /* extended tasks that wait; bodies that have begun and not ended */

static inline uint32_t bit(uint32_t body) { return 1u << body; }
static inline uint32_t runner(void) { return ipsr() == 0 ? IDLE : ipsr() - 16; }
static inline bool suspended(uint32_t task) { return ((NVIC_ISPR | NVIC_IABR | waiting) & bit(task)) == 0; }

/* Sets the body's request bit; the controller does the rest. */
static inline void request(uint32_t body)
{
    NVIC_ISPR = bit(body);
    synchronize();
}

static inline void make_ready(uint32_t task)
{
    bodies[task].bits = 0;
    request(task);
}

static inline void lose(uint32_t body)
{
    if (bodies[body].lost < 65535)
        bodies[body].lost++;
}

void read_configuration(void);              /* config.c */
enum status start_table(uint32_t table, uint32_t delay); /* cells.c */
enum status stop_table(uint32_t table);
void tick(void);                            /* the handler of the tick exception */
bool next_event(volatile uint8_t *status);  /* events.c: done by the running body; whether it goes on, or has ended */
void leave(uint32_t **own);                 /* body.c: leaves the running body's stack, kept in *own */

#endif

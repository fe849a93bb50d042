/* What is said to the bench: docs/UNIT.md. */
#ifndef BENCH_H
#define BENCH_H

#include <stdbool.h>
#include <stdint.h>

void greet(void);
void open_block(void);      /* waits for the next block */
bool more_events(void);     /* waits for the next block if this one is used up; an empty one has none */
uint32_t read_number(void); /* the next number of the block */
void send_answer(uint8_t status, uint8_t runner, uint8_t level, bool begun);
void end_run(void);         /* sends the losses and resets the unit */

#endif

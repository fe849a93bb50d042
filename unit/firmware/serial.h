/* The way to the bench and back, byte by byte. One of the files serial_*.c is linked. */
#ifndef SERIAL_H
#define SERIAL_H

#include <stdint.h>

void serial_open(void);
uint8_t serial_get(void);
void serial_put(uint8_t byte);
void serial_flush(void); /* what was put is on its way, whatever follows */

#endif

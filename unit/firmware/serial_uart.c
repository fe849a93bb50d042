/* The serial line of mps2-an385: CMSDK APB UART 0, polled. */
#include "nvic.h"
#include "serial.h"

#define UART 0x40004000u
#define UART_DATA REG(UART)
#define UART_STATE REG(UART + 0x04) /* bit 0: transmit buffer full; bit 1: receive buffer full */
#define UART_CTRL REG(UART + 0x08)
#define UART_BAUDDIV REG(UART + 0x10)

void serial_open(void)
{
    UART_BAUDDIV = 16; /* the least that is allowed */
    UART_CTRL = 3;     /* on, both ways */
    (void)UART_DATA;   /* QEMU looks for input again after a read only, not when the receiver is switched on after a reset */
}

uint8_t serial_get(void)
{
    while (!(UART_STATE & 2))
        ;
    return UART_DATA;
}

void serial_put(uint8_t byte)
{
    while (UART_STATE & 1)
        ;
    UART_DATA = byte;
}

void serial_flush(void) {}

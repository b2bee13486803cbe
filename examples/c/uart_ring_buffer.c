/* A receiver hands bytes from an interrupt to a task by a ring buffer, which has room for three.

       bin/rtosim-from-c --campaign examples/c/uart_ring_buffer.c --only failing
       bin/rtosim-from-c --campaign examples/c/uart_ring_buffer.c -D CURED

   If it is full, the interrupt drops the oldest byte: it moves the tail. The task moves the tail too, as it takes a byte: it loads it, adds
   one, and stores it. An interrupt in between drops the very byte that the task takes, which then counts twice, and the task overwrites the
   tail that the interrupt has stored. That needs a full buffer, so it happens with the first byte after a pause alone. The cure takes a byte
   in a critical section. */
#include "FreeRTOS.h"
#include "task.h"

#define SIZE 4
#define UART_DATA 42

static uint8_t ring[SIZE];
static volatile uint8_t head, tail;
static volatile unsigned came, dropped, taken;

void USART1_IRQHandler(void)
{
    uint8_t next = (head + 1) % SIZE;

    ring[head] = UART_DATA;
    head = next;
    if (next == tail) {
        tail = (tail + 1) % SIZE;
        dropped++;
    }
    came++;
}

static uint8_t take_byte(void)
{
    uint8_t byte;

#ifdef CURED
    taskENTER_CRITICAL();
#endif
    byte = ring[tail];
    tail = (tail + 1) % SIZE;
    taken++;
#ifdef CURED
    taskEXIT_CRITICAL();
#endif
    return byte;
}

static void receiver(void *parameters)
{
    (void)parameters;
    for (;;) {
        while (head != tail) {
            take_byte();
            /* rtosim: work 1 */
        }
        vTaskDelay(5);
    }
}

/* At the end each byte that came was taken or dropped, or is in the buffer. */
static void check(void *parameters)
{
    (void)parameters;
    rtosim_work(12);
    taskENTER_CRITICAL();
    configASSERT(taken + dropped + (uint8_t)(head - tail) % SIZE == came);
    taskEXIT_CRITICAL();
}

/* rtosim: interrupt 1 USART1 */
/* rtosim: interrupt 2 USART1 */
/* rtosim: interrupt 3 USART1 */

int main(void)
{
    xTaskCreate(receiver, "receiver", 128, NULL, 2, NULL);
    xTaskCreate(check, "check", 128, NULL, 1, NULL);
    vTaskStartScheduler();
}

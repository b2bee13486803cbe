/* A driver of a serial port looks for a byte, and suspends itself if there is none. Its interrupt puts the byte into the queue and
   resumes the driver.

       bin/rtosim-from-c --campaign examples/c/lost_wake_up.c --only failing
       bin/rtosim-from-c --campaign examples/c/lost_wake_up.c -D CURED

   A byte that comes between the look and the suspension is never fetched: the interrupt finds no suspended task to resume. The cure
   lets the driver block on the queue, which looks and blocks in one. */
#include "FreeRTOS.h"
#include "queue.h"
#include "task.h"

#define UART_DATA 42u /* what the data register holds */

static QueueHandle_t rx;
static TaskHandle_t driver_handle;

/* rtosim: points all USART1 */
void USART1_IRQHandler(void)
{
    BaseType_t woken = pdFALSE;
    uint8_t byte = UART_DATA;

    xQueueSendFromISR(rx, &byte, &woken);
#ifndef CURED
    xTaskResumeFromISR(driver_handle);
#endif
    portYIELD_FROM_ISR(woken);
}

static void driver(void *parameters)
{
    uint8_t byte;

    (void)parameters;
    for (;;) {
#ifdef CURED
        xQueueReceive(rx, &byte, portMAX_DELAY);
        configASSERT(byte == UART_DATA);
#else
        if (uxQueueMessagesWaiting(rx) == 0) {
            vTaskSuspend(NULL);
        }
        if (xQueueReceive(rx, &byte, 0) == pdTRUE) {
            configASSERT(byte == UART_DATA);
        }
#endif
    }
}

/* below the driver: when it runs, no byte may be left */
static void check(void *parameters)
{
    (void)parameters;
    rtosim_work(14);
    configASSERT(uxQueueMessagesWaiting(rx) == 0);
    vTaskDelete(NULL);
}

int main(void)
{
    rx = xQueueCreate(1, sizeof(uint8_t));
    xTaskCreate(driver, "driver", configMINIMAL_STACK_SIZE, NULL, 2, &driver_handle);
    xTaskCreate(check, "check", configMINIMAL_STACK_SIZE, NULL, 1, NULL);
    vTaskStartScheduler();
    return 0;
}

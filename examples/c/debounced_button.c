/* A button whose contacts bounce: the first edge counts, and those of the next 20 milliseconds don't.

       bin/rtosim-from-c --campaign examples/c/debounced_button.c --only failing
       bin/rtosim-from-c --campaign examples/c/debounced_button.c -D CURED

   The task counts a press and then sleeps until the contacts are quiet. An edge in that time gives the semaphore once more, and the task
   counts a second press when it wakes. The cure takes what the semaphore has remembered by then. The points are moments up to the end
   of the sleep: an edge after it is another press. */
#include "FreeRTOS.h"
#include "queue.h"
#include "semphr.h"
#include "task.h"

#define BOUNCES pdMS_TO_TICKS(20)

static SemaphoreHandle_t edge;
static QueueHandle_t presses;

/* the press itself comes at tick 2 */
/* rtosim: interrupt 2 EXTI1 */
/* rtosim: points 7 EXTI1, 8 EXTI1, 9 EXTI1, 10 EXTI1, 11 EXTI1, 12 EXTI1, 15 EXTI1, 20 EXTI1, 25 EXTI1, 12 EXTI1 20 EXTI1 */
void EXTI1_IRQHandler(void)
{
    BaseType_t woken = pdFALSE;

    xSemaphoreGiveFromISR(edge, &woken);
    portYIELD_FROM_ISR(woken);
}

static void button(void *parameters)
{
    const uint32_t press = 1;

    (void)parameters;
    for (;;) {
        xSemaphoreTake(edge, portMAX_DELAY);
        xQueueSend(presses, &press, 0);
        vTaskDelay(BOUNCES);
#ifdef CURED
        (void)xSemaphoreTake(edge, 0);
#endif
    }
}

static void check(void *parameters)
{
    (void)parameters;
    vTaskDelay(pdMS_TO_TICKS(25));
    configASSERT(uxQueueMessagesWaiting(presses) == 1);
    vTaskDelete(NULL);
}

int main(void)
{
    edge = xSemaphoreCreateBinary();
    presses = xQueueCreate(8, sizeof(uint32_t));
    xTaskCreate(button, "button", configMINIMAL_STACK_SIZE, NULL, 2, NULL);
    xTaskCreate(check, "check", configMINIMAL_STACK_SIZE, NULL, 1, NULL);
    vTaskStartScheduler();
    return 0;
}

/* A sensor measures a temperature by its interrupt. A task compares each sample with a limit, and another one sounds the alarm.

       bin/rtosim-from-c --campaign examples/c/sensor_with_alarm.c --only failing
       bin/rtosim-from-c --campaign examples/c/sensor_with_alarm.c -D CURED

   The alarm task waits for a bit, works off all alarms, and then clears the bit. An alarm that is raised just before the bit is cleared
   stays in the queue until the next one. The cure clears the bit as the wait ends, so that a later alarm sets it again. */
#include "FreeRTOS.h"
#include "event_groups.h"
#include "queue.h"
#include "task.h"

#define LIMIT 80u
#define TOO_HOT (1u << 0)
#define SENSOR_DATA 95u /* what the data register of the sensor holds */

static QueueHandle_t samples, alarms;
static EventGroupHandle_t state;

/* rtosim: interrupt 3 ADC1 */
/* rtosim: points all ADC1 */
void ADC1_IRQHandler(void)
{
    BaseType_t woken = pdFALSE;
    const uint8_t sample = SENSOR_DATA;

    configASSERT(xQueueSendFromISR(samples, &sample, &woken) == pdPASS);
    portYIELD_FROM_ISR(woken);
}

static void measure(void *parameters)
{
    const uint8_t too_hot = 1;
    uint8_t sample;

    (void)parameters;
    for (;;) {
        xQueueReceive(samples, &sample, portMAX_DELAY);
        if (sample > LIMIT) {
            configASSERT(xQueueSend(alarms, &too_hot, 0) == pdPASS);
            xEventGroupSetBits(state, TOO_HOT);
        }
    }
}

static void sound_alarms(void *parameters)
{
    uint8_t alarm;

    (void)parameters;
    for (;;) {
#ifdef CURED
        xEventGroupWaitBits(state, TOO_HOT, pdTRUE, pdTRUE, portMAX_DELAY);
#else
        xEventGroupWaitBits(state, TOO_HOT, pdFALSE, pdTRUE, portMAX_DELAY);
#endif
        while (xQueueReceive(alarms, &alarm, 0) == pdTRUE) {
            rtosim_work(2);
        }
#ifndef CURED
        xEventGroupClearBits(state, TOO_HOT);
#endif
    }
}

/* below the others: when it has run, each alarm must have sounded */
static void check(void *parameters)
{
    (void)parameters;
    rtosim_work(12);
    configASSERT(uxQueueMessagesWaiting(alarms) == 0);
    vTaskDelete(NULL);
}

int main(void)
{
    samples = xQueueCreate(4, sizeof(uint8_t));
    alarms = xQueueCreate(4, sizeof(uint8_t));
    state = xEventGroupCreate();
    xTaskCreate(measure, "measure", configMINIMAL_STACK_SIZE, NULL, 3, NULL);
    xTaskCreate(sound_alarms, "alarm", configMINIMAL_STACK_SIZE, NULL, 2, NULL);
    xTaskCreate(check, "check", configMINIMAL_STACK_SIZE, NULL, 1, NULL);
    vTaskStartScheduler();
    return 0;
}

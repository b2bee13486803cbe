/* A master on an I2C bus reads two registers, with a timeout and up to three tries for each.

       bin/rtosim-from-c --campaign examples/c/i2c_with_retry.c --only failing
       bin/rtosim-from-c --campaign examples/c/i2c_with_retry.c -D CURED

   The first try gets no answer in time, and the driver starts another one. If the answer of the first try comes all the same, the driver
   takes it for that of a later transfer. The cure looks whose answer it is, and drops those of other registers. */
#include "FreeRTOS.h"
#include "queue.h"
#include "task.h"

#define TRIES 3
#define TIMEOUT pdMS_TO_TICKS(3)
#define NO_ANSWER 0u
/* the answer of a register has its number in the upper digit */
#define ID_REGISTER 1u
#define ID_ANSWER 0x10u
#define STATUS_REGISTER 2u
#define STATUS_ANSWER 0x20u

static QueueHandle_t started, answers;

/* the answer of the first try, whenever it comes */
/* rtosim: points all I2C1 */
void I2C1_IRQHandler(void)
{
    BaseType_t woken = pdFALSE;
    uint8_t answer = ID_ANSWER;

    xQueueSendFromISR(answers, &answer, &woken);
    portYIELD_FROM_ISR(woken);
}

static uint8_t read_register(uint8_t number, uint8_t wanted)
{
    uint8_t answer = NO_ANSWER;

    for (int tries = 0; tries < TRIES; tries++) {
        xQueueSend(started, &number, 0);
#ifdef CURED
        while (xQueueReceive(answers, &answer, TIMEOUT) == pdTRUE) {
            if (answer == wanted) {
                return answer;
            }
        }
#else
        if (xQueueReceive(answers, &answer, TIMEOUT) == pdTRUE) {
            return answer;
        }
#endif
    }
    (void)wanted;
    return NO_ANSWER;
}

static void driver(void *parameters)
{
    (void)parameters;
    configASSERT(read_register(ID_REGISTER, ID_ANSWER) == ID_ANSWER);
    configASSERT(read_register(STATUS_REGISTER, STATUS_ANSWER) == STATUS_ANSWER);
    vTaskDelete(NULL);
}

/* the chip at the other end: it misses its first start, and answers each later one after two ticks */
static void chip(void *parameters)
{
    uint8_t number, answer;

    (void)parameters;
    xQueueReceive(started, &number, portMAX_DELAY);
    for (;;) {
        xQueueReceive(started, &number, portMAX_DELAY);
        vTaskDelay(2);
        if (number == ID_REGISTER) {
            answer = ID_ANSWER;
            xQueueSend(answers, &answer, 0);
        } else {
            answer = STATUS_ANSWER;
            xQueueSend(answers, &answer, 0);
        }
    }
}

int main(void)
{
    started = xQueueCreate(1, sizeof(uint8_t));
    answers = xQueueCreate(2, sizeof(uint8_t));
    xTaskCreate(driver, "driver", configMINIMAL_STACK_SIZE, NULL, 1, NULL);
    xTaskCreate(chip, "chip", configMINIMAL_STACK_SIZE, NULL, 2, NULL);
    vTaskStartScheduler();
    return 0;
}

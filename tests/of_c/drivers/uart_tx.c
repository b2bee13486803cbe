/* Frames over a UART with DMA: a gatekeeper task, messages by a queue of structures, and notifications by the callbacks of the HAL. */
#include "FreeRTOS.h"
#include "task.h"
#include "queue.h"
#include <string.h>
#include "stm32f4xx_hal.h"

#define TX_DONE_BIT   (1UL << 0)
#define TX_ERROR_BIT  (1UL << 1)

typedef enum { MSG_LOG, MSG_DATA, MSG_RESET } msg_type_t;
typedef struct {
    msg_type_t type;
    uint8_t *payload;
    uint16_t length;
} uart_msg_t;

typedef struct {
    TaskHandle_t task;
    QueueHandle_t queue;
    uint32_t errors;
    bool busy;
} uart_driver_t;

static uart_driver_t driver;

void HAL_UART_TxCpltCallback(void *huart)
{
    BaseType_t woken = pdFALSE;
    (void)huart;
    xTaskNotifyFromISR(driver.task, TX_DONE_BIT, eSetBits, &woken);
    portYIELD_FROM_ISR(woken);
}

void HAL_UART_ErrorCallback(void *huart)
{
    BaseType_t woken = pdFALSE;
    (void)huart;
    driver.errors++;
    xTaskNotifyFromISR(driver.task, TX_ERROR_BIT, eSetBits, &woken);
    portYIELD_FROM_ISR(woken);
}

static bool send_frame(const uart_msg_t *msg)
{
    uint32_t flags = 0;

    xTaskNotifyStateClear(NULL);
    if (xTaskNotifyWait(TX_DONE_BIT | TX_ERROR_BIT, UINT32_MAX, &flags, pdMS_TO_TICKS(50)) != pdTRUE) {
        return false;
    }
    return (flags & TX_ERROR_BIT) == 0 && (flags & TX_DONE_BIT) != 0;
}

static void uart_task(void *arg)
{
    uart_driver_t *drv = (uart_driver_t *)arg;
    uart_msg_t msg;
    uint8_t retries;

    drv->task = xTaskGetCurrentTaskHandle();
    while (1) {
        if (xQueueReceive(drv->queue, &msg, portMAX_DELAY) != pdPASS) {
            continue;
        }
        switch (msg.type) {
        case MSG_DATA:
            retries = 0;
            while (!send_frame(&msg) && retries < 3) {
                retries++;
                vTaskDelay(pdMS_TO_TICKS(2));
            }
            configASSERT(retries < 3);
            break;
        case MSG_RESET:
            drv->busy = false;
            break;
        default:
            break;
        }
    }
}

bool uart_send(uart_driver_t *drv, uint8_t *data, uint16_t length)
{
    uart_msg_t msg = { .type = MSG_DATA, .payload = data, .length = length };
    return xQueueSend(drv->queue, &msg, pdMS_TO_TICKS(10)) == pdPASS;
}

static void app_task(void *arg)
{
    static uint8_t buffer[32];
    memset(buffer, 0x55, sizeof(buffer));
    configASSERT(uart_send(&driver, buffer, sizeof(buffer)));
    vTaskDelay(pdMS_TO_TICKS(20));
}

int main(void)
{
    driver.queue = xQueueCreate(4, sizeof(uart_msg_t));
    xTaskCreate(uart_task, "uart", 256, &driver, 3, NULL);
    xTaskCreate(app_task, "app", 256, NULL, 2, NULL);
    vTaskStartScheduler();
}

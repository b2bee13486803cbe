/* EEPROM over I2C with interrupts: a driver object, a mutex, an event group, retries */
#include <string.h>
#include <stdbool.h>
#include "FreeRTOS.h"
#include "task.h"
#include "semphr.h"
#include "event_groups.h"
#include "i2c_hw.h"

#define EV_DONE   (1 << 0)
#define EV_NACK   (1 << 1)
#define EV_ERR    (1 << 2)
#define EV_ALL    (EV_DONE | EV_NACK | EV_ERR)
#define PAGE_SIZE 32

typedef enum { EE_OK = 0, EE_TIMEOUT = -1, EE_NACK = -2, EE_BUS = -3 } ee_status_t;

typedef struct {
    I2C_Type           *base;
    SemaphoreHandle_t   mutex;
    EventGroupHandle_t  events;
    uint8_t             address;
    uint8_t             page[PAGE_SIZE];
    struct { uint32_t writes, reads, retries; } stats;
} eeprom_t;

static eeprom_t eeprom;
static StaticSemaphore_t mutex_storage;
static StaticEventGroup_t events_storage;

void I2C0_IRQHandler(void)
{
    BaseType_t woken = pdFALSE;
    uint32_t flags = I2C_GetStatusFlags(eeprom.base);

    if (flags & kI2C_NackFlag) {
        I2C_ClearFlags(eeprom.base, kI2C_NackFlag);
        xEventGroupSetBitsFromISR(eeprom.events, EV_NACK, &woken);
    } else if (flags & kI2C_ErrFlag) {
        I2C_ClearFlags(eeprom.base, kI2C_ErrFlag);
        xEventGroupSetBitsFromISR(eeprom.events, EV_ERR, &woken);
    } else {
        I2C_ClearFlags(eeprom.base, kI2C_DoneFlag);
        xEventGroupSetBitsFromISR(eeprom.events, EV_DONE, &woken);
    }
    portYIELD_FROM_ISR(woken);
}

static ee_status_t wait_done(eeprom_t *ee, TickType_t timeout)
{
    EventBits_t bits = xEventGroupWaitBits(ee->events, EV_ALL, pdTRUE, pdFALSE, timeout);

    if (bits & EV_NACK) return EE_NACK;
    if (bits & EV_ERR) return EE_BUS;
    return (bits & EV_DONE) ? EE_OK : EE_TIMEOUT;
}

ee_status_t eeprom_write_page(eeprom_t *ee, uint16_t where, const void *data, size_t length)
{
    ee_status_t status;
    int attempts = 3;

    configASSERT(length <= PAGE_SIZE);
    if (xSemaphoreTake(ee->mutex, pdMS_TO_TICKS(50)) != pdTRUE) {
        return EE_TIMEOUT;
    }
    memcpy(ee->page, data, length);
    do {
        I2C_StartWrite(ee->base, ee->address, where, ee->page, length);
        status = wait_done(ee, pdMS_TO_TICKS(5));
        if (status != EE_NACK) {
            break;
        }
        ee->stats.retries++;
        vTaskDelay(pdMS_TO_TICKS(2));
    } while (--attempts > 0);
    if (status == EE_OK) {
        ee->stats.writes++;
    }
    xSemaphoreGive(ee->mutex);
    return status;
}

static void logger_task(void *argument)
{
    eeprom_t *ee = argument;
    static const char text[] = "hello";
    uint16_t where = 0;

    for (;;) {
        if (eeprom_write_page(ee, where, text, sizeof(text)) == EE_OK) {
            where += PAGE_SIZE;
        }
        vTaskDelay(pdMS_TO_TICKS(100));
    }
}

void eeprom_init(eeprom_t *ee, I2C_Type *base, uint8_t address)
{
    ee->base = base;
    ee->address = address;
    ee->mutex = xSemaphoreCreateMutexStatic(&mutex_storage);
    ee->events = xEventGroupCreateStatic(&events_storage);
}

int main(void)
{
    eeprom_init(&eeprom, I2C0, 0x50);
    xTaskCreate(logger_task, "logger", 256, &eeprom, 2, NULL);
    vTaskStartScheduler();
    return 0;
}

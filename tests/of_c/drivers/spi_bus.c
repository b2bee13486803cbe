/*
 * SPI bus shared by a flash memory and an accelerometer. Transfers go over DMA,
 * the bus is protected by a mutex.
 */
#include <stdint.h>
#include <stdbool.h>
#include <stddef.h>
#include "FreeRTOS.h"
#include "task.h"
#include "semphr.h"
#include "stm32f4xx.h"

#define SPI_TIMEOUT   pdMS_TO_TICKS(10)
#define CS_FLASH      (1u << 4)
#define CS_ACCEL      (1u << 5)

typedef enum { SPI_OK, SPI_BUSY, SPI_TIMEOUT_ERR, SPI_INVALID } spi_status_t;

typedef struct {
    SPI_TypeDef *regs;
    SemaphoreHandle_t lock;
    SemaphoreHandle_t done;
    uint32_t timeouts;
} spi_bus_t;

static spi_bus_t spi1 = { .regs = SPI1 };

void DMA2_Stream0_IRQHandler(void)
{
    BaseType_t woken = pdFALSE;

    if (DMA2->LISR & DMA_LISR_TCIF0) { /* rtosim: holds */
        DMA2->LIFCR = DMA_LIFCR_CTCIF0;
        xSemaphoreGiveFromISR(spi1.done, &woken);
    }
    portYIELD_FROM_ISR(woken);
}

static void spi_start_dma(spi_bus_t *bus, const uint8_t *tx, uint8_t *rx, size_t len)
{
    DMA2_Stream0->M0AR = (uint32_t)rx;
    DMA2_Stream0->NDTR = len;
    DMA2_Stream3->M0AR = (uint32_t)tx;
    DMA2_Stream3->NDTR = len;
    bus->regs->CR2 |= SPI_CR2_RXDMAEN | SPI_CR2_TXDMAEN;
    DMA2_Stream0->CR |= DMA_SxCR_EN;
    DMA2_Stream3->CR |= DMA_SxCR_EN;
}

static spi_status_t spi_transfer(spi_bus_t *bus, uint32_t cs, const uint8_t *tx, uint8_t *rx, size_t len)
{
    spi_status_t status = SPI_OK;

    if (bus == NULL || len == 0) {
        return SPI_INVALID;
    }
    if (xSemaphoreTake(bus->lock, SPI_TIMEOUT) != pdTRUE) {
        return SPI_BUSY;
    }
    GPIOA->BSRR = cs << 16;
    spi_start_dma(bus, tx, rx, len);
    if (xSemaphoreTake(bus->done, SPI_TIMEOUT) != pdTRUE) {
        bus->timeouts++;
        status = SPI_TIMEOUT_ERR;
    }
    GPIOA->BSRR = cs;
    xSemaphoreGive(bus->lock);
    return status;
}

static void flash_task(void *params)
{
    static const uint8_t read_id[4] = { 0x9F };
    uint8_t id[4];

    (void)params;
    while (true) {
        if (spi_transfer(&spi1, CS_FLASH, read_id, id, sizeof(id)) == SPI_OK) {
            rtosim_mark(1);
        }
        vTaskDelay(pdMS_TO_TICKS(100));
    }
}

static void accel_task(void *params)
{
    uint8_t tx[7] = { 0x80 | 0x32 };
    uint8_t rx[7];
    TickType_t last_wake = xTaskGetTickCount();
    int retries;

    (void)params;
    for (;;) {
        vTaskDelayUntil(&last_wake, pdMS_TO_TICKS(20));
        retries = 3;
        while (spi_transfer(&spi1, CS_ACCEL, tx, rx, sizeof(tx)) != SPI_OK && --retries > 0) {
            taskYIELD();
        }
    }
}

#ifdef RTOSIM
/* rtosim: interrupt 2 DMA2_Stream0 */
/* rtosim: points all DMA2_Stream0 */
/* nothing may be left of an earlier transfer when the bus is free */
static void check(void *p)
{
    vTaskDelay(16);
    configASSERT(xSemaphoreTake(spi1.lock, 20) == pdTRUE);
    configASSERT(xSemaphoreTake(spi1.done, 0) == pdFALSE);
}
#endif

void spi_init(void)
{
    spi1.lock = xSemaphoreCreateMutex();
    spi1.done = xSemaphoreCreateBinary();
    configASSERT(spi1.lock && spi1.done);
    NVIC_SetPriority(DMA2_Stream0_IRQn, configLIBRARY_MAX_SYSCALL_INTERRUPT_PRIORITY + 1);
    NVIC_EnableIRQ(DMA2_Stream0_IRQn);
    xTaskCreate(flash_task, "flash", 256, NULL, 2, NULL);
    xTaskCreate(accel_task, "accel", 256, NULL, 3, NULL);
#ifdef RTOSIM
    xTaskCreate(check, "check", 256, NULL, 1, NULL);
#endif
}

int main(void)
{
    SystemInit();
    spi_init();
    vTaskStartScheduler();
    for (;;) {
    }
}

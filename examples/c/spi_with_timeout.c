/* A flash memory on an SPI bus: a transfer is started by DMA, and its interrupt notifies the task that has started it.

       bin/rtosim-from-c --campaign examples/c/spi_with_timeout.c --only failing
       bin/rtosim-from-c --campaign examples/c/spi_with_timeout.c -D CURED

   The second transfer takes too long, and the driver aborts it. If it is done after the timeout and before the abort, the task is notified
   all the same. Nobody takes this notification, so the next wait ends at once, and the driver returns data that hasn't come yet. The cure
   clears the notification after the abort. */
#include "FreeRTOS.h"
#include "task.h"

#define TIMEOUT pdMS_TO_TICKS(5)

typedef enum { SPI_OK, SPI_TIMEOUT } spi_status_t;

/* the device: whether a transfer is on its way, which an interrupt ends */
static struct {
    volatile uint32_t BUSY;
} rtosim_SPI1;

static TaskHandle_t waiting;

static void spi_start(void)
{
    rtosim_SPI1.BUSY = 1;
}

static void spi_abort(void)
{
    rtosim_SPI1.BUSY = 0;
}

static void transfer_complete(void)
{
    BaseType_t woken = pdFALSE;

    if (waiting != NULL) {
        vTaskNotifyGiveFromISR(waiting, &woken);
        waiting = NULL;
    }
    portYIELD_FROM_ISR(woken);
}

/* rtosim: interrupt 3 SPI1 */
/* rtosim: interrupt 18 SPI1 */
/* rtosim: points all SPI1 */
void SPI1_IRQHandler(void)
{
    if (rtosim_SPI1.BUSY) {
        rtosim_SPI1.BUSY = 0;
        transfer_complete();
    }
}

static spi_status_t transfer(void)
{
    waiting = xTaskGetCurrentTaskHandle();
    spi_start();
    if (ulTaskNotifyTake(pdTRUE, TIMEOUT) != 0) {
        return SPI_OK;
    }
    spi_abort();
    waiting = NULL;
#ifdef CURED
    xTaskNotifyStateClear(NULL);
    ulTaskNotifyValueClear(NULL, UINT32_MAX);
#endif
    return SPI_TIMEOUT;
}

static void flash(void *parameters)
{
    (void)parameters;
    for (int page = 0; page < 3; page++) {
        if (transfer() == SPI_OK) {
            /* the data is read, so the transfer must be done */
            configASSERT(!rtosim_SPI1.BUSY);
        }
        vTaskDelay(pdMS_TO_TICKS(4));
    }
    vTaskDelete(NULL);
}

int main(void)
{
    xTaskCreate(flash, "flash", configMINIMAL_STACK_SIZE, NULL, 2, NULL);
    vTaskStartScheduler();
    return 0;
}

/* A DMA controller fills two buffers in turn, with an interrupt for each. The driver works on a full buffer and gives it back.

       bin/rtosim-from-c --campaign examples/c/dma_double_buffer.c --only failing
       bin/rtosim-from-c --campaign examples/c/dma_double_buffer.c -D CURED

   Each interrupt notifies the driver which buffer is full. The number of the buffer is the value of the notification, and
   eSetValueWithOverwrite replaces one that the driver hasn't taken yet. That happens if another interrupt wakes the logger, which runs
   above the driver until both buffers are full: the first one is never given back. In the cure each buffer is a bit that eSetBits sets,
   and the driver works on all buffers whose bits it finds. */
#include "FreeRTOS.h"
#include "task.h"

#define FIRST 1u
#define SECOND 2u

typedef struct {
    volatile uint32_t CONTROL, OWNER;
} DMA_TypeDef;

#define DMA1 ((DMA_TypeDef *)0x40020000u)

static TaskHandle_t driver_handle, logger_handle;
static uint32_t taken;

static void notify_driver(uint32_t buffer)
{
    BaseType_t woken = pdFALSE;

#ifdef CURED
    xTaskNotifyFromISR(driver_handle, buffer, eSetBits, &woken);
#else
    xTaskNotifyFromISR(driver_handle, buffer, eSetValueWithOverwrite, &woken);
#endif
    portYIELD_FROM_ISR(woken);
}

/* rtosim: interrupt 3 DMA1_First */
/* rtosim: interrupt 7 DMA1_Second */
/* rtosim: interrupt 11 DMA1_First */
/* rtosim: interrupt 15 DMA1_Second */
/* rtosim: points all EXTI4 */
void DMA1_First_IRQHandler(void)
{
    notify_driver(FIRST);
}

void DMA1_Second_IRQHandler(void)
{
    notify_driver(SECOND);
}

void EXTI4_IRQHandler(void)
{
    BaseType_t woken = pdFALSE;

    vTaskNotifyGiveFromISR(logger_handle, &woken);
    portYIELD_FROM_ISR(woken);
}

static void logger(void *parameters)
{
    (void)parameters;
    for (;;) {
        ulTaskNotifyTake(pdTRUE, portMAX_DELAY);
        rtosim_work(5);
    }
}

static void work_on(uint32_t buffer)
{
    rtosim_work(2);
    DMA1->OWNER |= buffer;
    taken++;
}

static void driver(void *parameters)
{
    uint32_t full;

    (void)parameters;
    for (;;) {
        if (xTaskNotifyWait(0, UINT32_MAX, &full, pdMS_TO_TICKS(50)) == pdTRUE) {
            if (full & FIRST) {
                work_on(FIRST);
            }
            if (full & SECOND) {
                work_on(SECOND);
            }
        }
    }
}

/* below the others: when it has run, each full buffer must have been given back */
static void check(void *parameters)
{
    (void)parameters;
    rtosim_work(16);
    configASSERT(taken == 4);
    vTaskDelete(NULL);
}

int main(void)
{
    xTaskCreate(logger, "logger", configMINIMAL_STACK_SIZE, NULL, 3, &logger_handle);
    xTaskCreate(driver, "driver", configMINIMAL_STACK_SIZE, NULL, 2, &driver_handle);
    xTaskCreate(check, "check", configMINIMAL_STACK_SIZE, NULL, 1, NULL);
    vTaskStartScheduler();
    return 0;
}

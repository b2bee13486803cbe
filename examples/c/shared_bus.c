/* Two drivers share a bus, and a supply that the devices on it need: each takes both mutexes.

       bin/rtosim-from-c --campaign examples/c/shared_bus.c --only failing
       bin/rtosim-from-c --campaign examples/c/shared_bus.c -D CURED

   The sensor takes the supply and then the bus, the display the bus and then the supply. If the button wakes the display while the
   sensor has only the first of them, both wait for each other forever. The cure takes them in one order. */
#include "FreeRTOS.h"
#include "semphr.h"
#include "task.h"

static SemaphoreHandle_t bus, supply, pressed;

/* rtosim: points all EXTI0 */
void EXTI0_IRQHandler(void)
{
    BaseType_t woken = pdFALSE;

    xSemaphoreGiveFromISR(pressed, &woken);
    portYIELD_FROM_ISR(woken);
}

static void acquire(SemaphoreHandle_t first, SemaphoreHandle_t second)
{
    xSemaphoreTake(first, portMAX_DELAY);
    rtosim_work(1);
    xSemaphoreTake(second, portMAX_DELAY);
}

static void release(void)
{
    xSemaphoreGive(bus);
    xSemaphoreGive(supply);
}

static void display(void *parameters)
{
    (void)parameters;
    for (;;) {
        xSemaphoreTake(pressed, portMAX_DELAY);
#ifdef CURED
        acquire(supply, bus);
#else
        acquire(bus, supply);
#endif
        rtosim_work(1);
        release();
    }
}

static void sensor(void *parameters)
{
    (void)parameters;
    for (int sample = 0; sample < 2; sample++) {
        acquire(supply, bus);
        rtosim_work(2);
        release();
        vTaskDelay(pdMS_TO_TICKS(5));
    }
    vTaskDelete(NULL);
}

int main(void)
{
    bus = xSemaphoreCreateMutex();
    supply = xSemaphoreCreateMutex();
    pressed = xSemaphoreCreateBinary();
    xTaskCreate(display, "display", configMINIMAL_STACK_SIZE, NULL, 2, NULL);
    xTaskCreate(sensor, "sensor", configMINIMAL_STACK_SIZE, NULL, 1, NULL);
    vTaskStartScheduler();
    return 0;
}

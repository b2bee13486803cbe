/* Quadrature encoder on two EXTI lines: a task decodes the pins by a table of transitions. */
#include "FreeRTOS.h"
#include "task.h"
#include "queue.h"
#include "stm32f4xx_hal.h"
#define ENC_A_Pin 6
#define ENC_B_Pin 7
typedef enum { ENC_EVT_CW = 1, ENC_EVT_CCW = -1, ENC_EVT_NONE = 0 } enc_evt_t;
typedef struct {
    GPIO_TypeDef *port;
    uint8_t  prev;
    volatile int16_t position;
    volatile uint32_t errors;
    QueueHandle_t events;
} encoder_t;

static const int8_t enc_table[16] = { 0, -1, 1, 2, 1, 0, 2, -1, -1, 2, 0, 1, 2, 1, -1, 0 };
static TaskHandle_t dec;
static encoder_t enc1 = { .port = GPIOA };

#ifdef RTOSIM
static struct { volatile uint32_t IDR; } rtosim_PINS = { 0 };
#define READ_AB() (rtosim_PINS.IDR & 3)
void pins_a_ISR(void) { rtosim_PINS.IDR ^= 1; }
#else
#define READ_AB() ((GPIOA->IDR >> ENC_A_Pin) & 3)
#endif

static enc_evt_t encoder_step(encoder_t *e)
{
    uint8_t ab = READ_AB();
    int8_t d = enc_table[(e->prev << 2) | ab];
    e->prev = ab;
    if (d == 2) {
        e->errors++;
        return ENC_EVT_NONE;
    }
    e->position += d;
    return (enc_evt_t)d;
}

void HAL_GPIO_EXTI_Callback(uint16_t pin)
{
    BaseType_t woken = pdFALSE;
    if (pin == ENC_A_Pin || pin == ENC_B_Pin) {
        vTaskNotifyGiveFromISR(dec, &woken);
    }
    portYIELD_FROM_ISR(woken);
}

static void ui_task(void *arg)
{
    encoder_t *e = arg;
    enc_evt_t evt;
    int volume = 50;
    for (;;) {
        if (xQueueReceive(e->events, &evt, portMAX_DELAY) == pdPASS) {
            volume += evt;
            if (volume < 0) volume = 0;
            else if (volume > 100) volume = 100;
        }
    }
}
static void dec_task(void *arg)
{
    for (;;) {
        ulTaskNotifyTake(pdTRUE, portMAX_DELAY);
        enc_evt_t evt = encoder_step(&enc1);
        if (evt != ENC_EVT_NONE)
            xQueueSend(enc1.events, &evt, 0);
    }
}
static void check_task(void *arg)
{
    vTaskDelay(pdMS_TO_TICKS(30));
    configASSERT(enc1.errors == 0);
}
int main(void)
{
    enc1.events = xQueueCreate(8, sizeof(enc_evt_t));
    xTaskCreate(ui_task, "ui", 256, &enc1, 2, NULL);
    xTaskCreate(dec_task, "dec", 256, &enc1, 3, &dec);
    xTaskCreate(check_task, "check", 256, &enc1, 1, NULL);
    vTaskStartScheduler();
}

/* Continuous sampling: the ADC fills a circular buffer by DMA, and the two callbacks of the HAL say which half is ready. */
#include "FreeRTOS.h"
#include "task.h"
#include "stm32g4xx_hal.h"

#define ADC_BUF_LEN     64u
#define ADC_HALF_LEN    (ADC_BUF_LEN / 2u)
#define ADC_EVT_HALF    (1UL << 0)
#define ADC_EVT_FULL    (1UL << 1)
#define ADC_EVT_ERROR   (1UL << 2)
#define ADC_EVT_ALL     (ADC_EVT_HALF | ADC_EVT_FULL | ADC_EVT_ERROR)

typedef struct {
    ADC_HandleTypeDef *hadc;
    TaskHandle_t       task;
    uint16_t           buffer[ADC_BUF_LEN];
    volatile uint32_t  pending_halves;
    uint32_t           overruns;
    uint32_t           blocks;
    bool               running;
} adc_stream_t;

ADC_HandleTypeDef hadc1 = { .Instance = ADC1 };
static adc_stream_t stream;

static void adc_stream_notify(adc_stream_t *s, uint32_t event)
{
    BaseType_t woken = pdFALSE;

    if (!s->running) {
        return;
    }
    if (s->pending_halves >= 2u) {
        s->overruns++;
    } else {
        s->pending_halves++;
    }
    xTaskNotifyFromISR(s->task, event, eSetBits, &woken);
    portYIELD_FROM_ISR(woken);
}

void HAL_ADC_ConvHalfCpltCallback(ADC_HandleTypeDef *hadc)
{
    if (hadc->Instance == ADC1) {
        adc_stream_notify(&stream, ADC_EVT_HALF);
    }
}

void HAL_ADC_ConvCpltCallback(ADC_HandleTypeDef *hadc)
{
    if (hadc == &hadc1) {
        adc_stream_notify(&stream, ADC_EVT_FULL);
    }
}

static uint32_t average(const uint16_t *samples, uint32_t count)
{
    uint32_t sum = 0;
    for (uint32_t i = 0; i < count; i++) {
        sum += samples[i];
    }
    return sum / count;
}

static void adc_process(adc_stream_t *s, const uint16_t *half)
{
    uint32_t mean = average(half, ADC_HALF_LEN);
    (void)mean;
    rtosim_work(2);
    s->blocks++;
    s->pending_halves--;
}

static bool adc_stream_start(adc_stream_t *s, ADC_HandleTypeDef *hadc, TaskHandle_t consumer)
{
    s->hadc = hadc;
    s->task = consumer;
    s->pending_halves = 0;
    s->running = true;
    return HAL_ADC_Start_DMA(s->hadc, (uint32_t *)s->buffer, ADC_BUF_LEN) == HAL_OK;
}

static void adc_task(void *arg)
{
    adc_stream_t *s = arg;
    uint32_t events;

    if (!adc_stream_start(s, &hadc1, xTaskGetCurrentTaskHandle())) {
        Error_Handler();
    }
    for (;;) {
        if (xTaskNotifyWait(0, ADC_EVT_ALL, &events, pdMS_TO_TICKS(100)) != pdTRUE) {
            continue;
        }
        if (events & ADC_EVT_HALF) {
            adc_process(s, &s->buffer[0]);
        }
        if (events & ADC_EVT_FULL) {
            adc_process(s, &s->buffer[ADC_HALF_LEN]);
        }
    }
}

/* rtosim: interrupt 10 HAL_ADC_ConvHalf */
/* rtosim: interrupt 20 HAL_ADC_ConvCplt */
static void check_task(void *arg)
{
    (void)arg;
    vTaskDelay(pdMS_TO_TICKS(40));
    configASSERT(stream.overruns == 0);
    configASSERT(stream.pending_halves == 0);
}

int main(void)
{
    HAL_Init();
    SystemClock_Config();
    HAL_ADC_Init(&hadc1);
    xTaskCreate(adc_task, "adc", 256, &stream, 3, NULL);
    xTaskCreate(check_task, "check", 256, NULL, 1, NULL);
    vTaskStartScheduler();
    for (;;) {
    }
}

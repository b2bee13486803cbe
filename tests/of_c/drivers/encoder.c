/* Position of a quadrature encoder: the timer counts 16 bits, its overflow interrupt counts the turns above them. */
#include "FreeRTOS.h"
#include "task.h"
#include "queue.h"
#include "stm32g4xx_hal.h"

#define ENC_COUNTS      4096
#define ENC_LIMIT       (3 * ENC_COUNTS)
#define CTRL_PERIOD_MS  10

typedef struct {
    TIM_HandleTypeDef *htim;
    volatile int32_t   turns;
    int32_t            last;
    int32_t            speed;
    bool               homed;
} encoder_t;

typedef struct {
    int32_t position;
    int32_t speed;
} enc_sample_t;

#ifdef RTOSIM
static TIM_TypeDef rtosim_TIM2;
#undef TIM2
#define TIM2 (&rtosim_TIM2)
#endif

static TIM_HandleTypeDef htim2 = { .Instance = TIM2 };
static encoder_t encoder = { .htim = &htim2 };
static QueueHandle_t samples;
static bool limit_hit;

void TIM2_IRQHandler(void)
{
    TIM2->SR = ~TIM_SR_UIF;
    if (TIM2->CR1 & TIM_CR1_DIR) {
        encoder.turns--;
    } else {
        encoder.turns++;
    }
}

/* the index pulse: here the position is 0 */
void EXTI9_5_IRQHandler(void)
{
    encoder.turns = 0;
    encoder.last = 0;
    TIM2->CNT = 0;
}

static int32_t encoder_read(encoder_t *enc)
{
    int32_t turns;
    uint32_t count;

    taskENTER_CRITICAL();
    turns = enc->turns;
    count = enc->htim->Instance->CNT;
    taskEXIT_CRITICAL();
    return turns * ENC_COUNTS + (int32_t)count;
}

static void encoder_update(encoder_t *enc, enc_sample_t *out)
{
    int32_t now = encoder_read(enc);

    if (now >= ENC_LIMIT) {
        limit_hit = true;
    }
    enc->speed = now - enc->last;
    enc->last = now;
    out->position = now;
    out->speed = enc->speed;
}

static void control_task(void *arg)
{
    encoder_t *enc = arg;
    enc_sample_t sample;
    TickType_t wake = xTaskGetTickCount();

    enc->homed = true;
    for (;;) {
        vTaskDelayUntil(&wake, pdMS_TO_TICKS(CTRL_PERIOD_MS));
        encoder_update(enc, &sample);
        if (limit_hit) {
            motor_stop();
        }
        if (enc->homed && sample.speed != 0) {
            xQueueSend(samples, &sample, 0);
        }
    }
}

/* rtosim: interrupt 5 TIM2 */
/* rtosim: interrupt 15 TIM2 */
/* rtosim: interrupt 25 TIM2 */
/* rtosim: points all EXTI9_5 */
/* rtosim: item speed */
static void monitor_task(void *arg)
{
    enc_sample_t sample;

    (void)arg;
    for (int i = 0; i < 3; i++) {
        if (xQueueReceive(samples, &sample, pdMS_TO_TICKS(50)) == pdPASS) {
            configASSERT(sample.speed >= 0);
        }
    }
}

int main(void)
{
    samples = xQueueCreate(8, sizeof(enc_sample_t));
    HAL_TIM_Encoder_Start(&htim2, TIM_CHANNEL_ALL);
    xTaskCreate(control_task, "control", 256, &encoder, 4, NULL);
    xTaskCreate(monitor_task, "monitor", 256, NULL, 2, NULL);
    vTaskStartScheduler();
}

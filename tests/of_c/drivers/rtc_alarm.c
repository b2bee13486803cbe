/* Wakes a logger by the alarm of the RTC. The next alarm is set by the task, from the time at which it woke. */
#include "FreeRTOS.h"
#include "task.h"
#include "semphr.h"
#include "queue.h"
#include "stm32g4xx_hal.h"

#define LOG_PERIOD_S    5u
#define LOG_DEPTH       4u

typedef enum { RTC_IDLE, RTC_ARMED, RTC_FIRED } rtc_state_t;

struct rtc_alarm {
    RTC_HandleTypeDef  *hrtc;
    SemaphoreHandle_t   sem;
    volatile rtc_state_t state;
    uint32_t            missed;
    uint8_t             next_seconds;
};

typedef struct {
    uint16_t sequence;
    uint8_t  seconds;
} log_record_t;

static RTC_HandleTypeDef hrtc = { .Instance = RTC };
static struct rtc_alarm alarm = { .hrtc = &hrtc, .state = RTC_IDLE };
static QueueHandle_t records;

void RTC_Alarm_IRQHandler(void)
{
    BaseType_t higher_woken = pdFALSE;

    if (RTC->SR & RTC_SR_ALRAF) { /* rtosim: holds */
        RTC->SCR = RTC_SCR_CALRAF;
        if (alarm.state == RTC_FIRED) {
            alarm.missed++;
        }
        alarm.state = RTC_FIRED;
        xSemaphoreGiveFromISR(alarm.sem, &higher_woken);
    }
    portYIELD_FROM_ISR(higher_woken);
}

static HAL_StatusTypeDef rtc_alarm_arm(struct rtc_alarm *a, uint8_t in_seconds)
{
    RTC_TimeTypeDef now = { 0 };
    RTC_AlarmTypeDef config = { 0 };

    if (a->state == RTC_ARMED) {
        return HAL_BUSY;
    }
    HAL_RTC_GetTime(a->hrtc, &now, RTC_FORMAT_BIN);
    a->next_seconds = (now.Seconds + in_seconds) % 60u;
    config.AlarmTime.Seconds = a->next_seconds;
    config.AlarmMask = RTC_ALARMMASK_DATEWEEKDAY;
    config.Alarm = RTC_ALARM_A;
    if (HAL_RTC_SetAlarm_IT(a->hrtc, &config, RTC_FORMAT_BIN) != HAL_OK) {
        return HAL_ERROR;
    }
    a->state = RTC_ARMED;
    return HAL_OK;
}

static HAL_StatusTypeDef rtc_alarm_wait(struct rtc_alarm *a, TickType_t ticks)
{
    if (xSemaphoreTake(a->sem, ticks) != pdTRUE) {
        return HAL_TIMEOUT;
    }
    a->state = RTC_IDLE;
    return HAL_OK;
}

static void logger_task(void *params)
{
    QueueHandle_t out = (QueueHandle_t)params;
    log_record_t record = { 0 };

    for (;;) {
        configASSERT(rtc_alarm_arm(&alarm, LOG_PERIOD_S) == HAL_OK);
        if (rtc_alarm_wait(&alarm, pdMS_TO_TICKS(30)) == HAL_OK) {
            record.sequence++;
            record.seconds = alarm.next_seconds;
            if (xQueueSend(out, &record, 0) != pdPASS) {
                alarm.missed++;
            }
        }
    }
}

/* rtosim: interrupt 12 RTC_Alarm */
static void reader_task(void *params)
{
    log_record_t record;

    (void)params;
    configASSERT(xQueueReceive(records, &record, pdMS_TO_TICKS(50)) == pdPASS);
    configASSERT(record.sequence == 1);
    configASSERT(alarm.missed == 0);
}

static void rtc_alarm_init(struct rtc_alarm *a, SemaphoreHandle_t done)
{
    a->sem = done;
}

int main(void)
{
    SemaphoreHandle_t done = xSemaphoreCreateBinary();

    records = xQueueCreate(LOG_DEPTH, sizeof(log_record_t));
    if (done == NULL || records == NULL) {
        Error_Handler();
    }
    rtc_alarm_init(&alarm, done);
    xTaskCreate(logger_task, "logger", 256, (void *)records, 2, NULL);
    xTaskCreate(reader_task, "reader", 256, NULL, 1, NULL);
    vTaskStartScheduler();
}

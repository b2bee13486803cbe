/* Four keys with software debounce, reported by an event group. */
#include "freertos/FreeRTOS.h"
#include "freertos/task.h"
#include "freertos/event_groups.h"
#include "driver/gpio.h"
#include "esp_log.h"

#define KEY_COUNT       4
#define DEBOUNCE_MS     20
#define KEY_UP_BIT      BIT0
#define KEY_DOWN_BIT    BIT1
#define KEY_OK_BIT      BIT2
#define KEY_BACK_BIT    BIT3
#define KEY_ALL_BITS    (KEY_UP_BIT | KEY_DOWN_BIT | KEY_OK_BIT | KEY_BACK_BIT)

static const char *TAG = "keypad";
static const gpio_num_t key_pins[KEY_COUNT] = { GPIO_NUM_12, GPIO_NUM_13, GPIO_NUM_14, GPIO_NUM_15 };
static EventGroupHandle_t key_events;
static TaskHandle_t debounce_task;
static uint8_t history[KEY_COUNT];
static int selected;

static void IRAM_ATTR gpio_isr_handler(void *arg)
{
    BaseType_t high_task_awoken = pdFALSE;
    uint32_t pin = (uint32_t)arg;

    xTaskNotifyFromISR(debounce_task, 1UL << pin, eSetBits, &high_task_awoken);
    if (high_task_awoken == pdTRUE) {
        portYIELD_FROM_ISR();
    }
}

static void key_debounce(void *arg)
{
    uint32_t pending = 0;

    for (;;) {
        xTaskNotifyWait(0, ULONG_MAX, &pending, portMAX_DELAY);
        vTaskDelay(pdMS_TO_TICKS(DEBOUNCE_MS));
        for (int i = 0; i < KEY_COUNT; i++) {
            if ((pending & (1UL << i)) && gpio_get_level(key_pins[i]) == 0) {
                xEventGroupSetBits(key_events, 1UL << i);
            }
        }
    }
}

static void ui_task(void *arg)
{
    for (;;) {
        EventBits_t bits = xEventGroupWaitBits(key_events, KEY_ALL_BITS, pdTRUE, pdFALSE, portMAX_DELAY);

        if (bits & KEY_UP_BIT) {
            selected--;
        }
        if (bits & KEY_DOWN_BIT) {
            selected++;
        }
        if (bits & KEY_OK_BIT) {
            ESP_LOGI(TAG, "item %d", selected);
        }
    }
}

#ifdef RTOSIM
/* below the others: each key that was reported must have been handled */
static void check(void *arg)
{
    rtosim_work(60);
    configASSERT(xEventGroupGetBits(key_events) == 0);
}
#endif

/* rtosim: interrupt 2 gpio_isr_handl_1 */
void app_main(void)
{
    gpio_config_t io_conf = {
        .intr_type = GPIO_INTR_NEGEDGE,
        .mode = GPIO_MODE_INPUT,
        .pull_up_en = 1,
    };

    gpio_config(&io_conf);
    key_events = xEventGroupCreate();
    xTaskCreate(key_debounce, "debounce", 2048, NULL, 10, &debounce_task);
    xTaskCreate(ui_task, "ui", 4096, NULL, 5, NULL);
#ifdef RTOSIM
    xTaskCreate(check, "check", 2048, NULL, 1, NULL);
#endif
    gpio_install_isr_service(0);
    for (int i = 0; i < KEY_COUNT; i++) {
        gpio_isr_handler_add(key_pins[i], gpio_isr_handler, (void *)i);
    }
}

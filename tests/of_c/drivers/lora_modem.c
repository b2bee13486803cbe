/* AT command receiver for a LoRa modem (RN2483-like) on USART2. */
#include "FreeRTOS.h"
#include "task.h"
#include "queue.h"
#include "semphr.h"
#include <string.h>
#include <stdbool.h>

#ifdef RTOSIM
#define RX_BUF_SIZE 3
#define USART_HAS_BYTE 1
#define USART_BYTE '\n'
#else
#include "stm32f4xx.h"
#define RX_BUF_SIZE 128
#define USART_HAS_BYTE (USART2->SR & USART_SR_RXNE)
#define USART_BYTE ((uint8_t)USART2->DR)
#endif
#define USART_SR_RXNE 0x20u
#define USART_SR_ORE  0x08u
#define LINE_MAX 8

typedef struct {
    uint8_t           buf[RX_BUF_SIZE];
    volatile uint16_t head;
    volatile uint16_t tail;
    volatile uint32_t overruns;
} rx_fifo_t;

typedef enum { MODEM_IDLE, MODEM_WAIT_REPLY, MODEM_GOT_OK, MODEM_GOT_ERR } modem_state_t;

static rx_fifo_t rx;
static SemaphoreHandle_t rx_sem;
static volatile modem_state_t modem_state = MODEM_IDLE;
static char line[LINE_MAX] = { 'o', 'k' };
static uint8_t line_len = 2;

void USART2_IRQHandler(void)
{
    BaseType_t woken = pdFALSE;

    if (USART_HAS_BYTE) {
        rx.buf[rx.head] = USART_BYTE;
        rx.head = (rx.head + 1) % RX_BUF_SIZE;
        xSemaphoreGiveFromISR(rx_sem, &woken);
    }
    portYIELD_FROM_ISR(woken);
}

/* rtosim: interrupt 5 USART2 */
static bool fifo_get(rx_fifo_t *f, uint8_t *c)
{
    if (f->head == f->tail)
        return false;
    *c = f->buf[f->tail];
    f->tail = (f->tail + 1) % RX_BUF_SIZE;
    return true;
}

static void handle_line(void)
{
    if (line_len >= 2 && line[0] == 'o' && line[1] == 'k')
        modem_state = MODEM_GOT_OK;
    else
        modem_state = MODEM_GOT_ERR;
    line_len = 0;
}

static void modem_rx_task(void *arg)
{
    uint8_t c;

    (void)arg;
    for (;;) {
        xSemaphoreTake(rx_sem, portMAX_DELAY);
        while (fifo_get(&rx, &c)) {
            rtosim_work(1);
            if (c == '\n') {
                handle_line();
            } else if (c != '\r' && line_len < LINE_MAX - 1) {
                line[line_len++] = (char)c;
            }
        }
    }
}

static int modem_command(const char *cmd, TickType_t timeout)
{
    TickType_t start = xTaskGetTickCount();

    modem_state = MODEM_WAIT_REPLY;
    (void)cmd;
    while (modem_state == MODEM_WAIT_REPLY) {
        if (xTaskGetTickCount() - start > timeout)
            return -1;
        vTaskDelay(1);
    }
    return modem_state == MODEM_GOT_OK ? 0 : -2;
}

static void app_task(void *arg)
{
    (void)arg;
    configASSERT(modem_command("mac join otaa\r\n", pdMS_TO_TICKS(20)) == 0);
    vTaskDelete(NULL);
}

int main(void)
{
    rx_sem = xSemaphoreCreateCounting(16, 0);
    xTaskCreate(modem_rx_task, "modem_rx", 256, NULL, 3, NULL);
    xTaskCreate(app_task, "app", 256, NULL, 2, NULL);
    vTaskStartScheduler();
}

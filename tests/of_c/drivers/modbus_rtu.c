/* Receiver of Modbus RTU: bytes by interrupt, and a frame ends with a silence of 3.5 characters. */
#include <string.h>
#include "FreeRTOS.h"
#include "task.h"
#include "queue.h"
#include "semphr.h"
#include "mb_port.h"

#define MB_ADU_MAX      8u
#define MB_ADDRESS      0x11u
#define MB_T35_TICKS    pdMS_TO_TICKS(4)
#define MB_READ_HOLDING 0x03u

typedef enum { MB_STATE_IDLE, MB_STATE_RECEIVING, MB_STATE_READY, MB_STATE_OVERRUN } mb_state_t;

typedef struct {
    uint8_t       adu[MB_ADU_MAX];
    uint16_t      length;
    mb_state_t    state;
    uint16_t      crc_errors;
    uint16_t      frames;
} mb_context_t;

#ifdef RTOSIM
static MB_UART_TypeDef rtosim_UART = { .DR = MB_ADDRESS };
#undef MB_UART
#define MB_UART (&rtosim_UART)
#endif

static mb_context_t mb;
static QueueHandle_t mb_rx;
static SemaphoreHandle_t mb_done;

void USART3_IRQHandler(void)
{
    BaseType_t woken = pdFALSE;

    while (MB_UART->SR & MB_UART_SR_RXNE) { /* rtosim: turns 1 */
        uint8_t byte = (uint8_t)MB_UART->DR;
        xQueueSendFromISR(mb_rx, &byte, &woken);
    }
    portYIELD_FROM_ISR(woken);
}

static uint16_t mb_crc16(const uint8_t *data, uint16_t length)
{
    uint16_t crc = 0xFFFF;
    while (length--) {
        crc ^= *data++;
        for (int i = 0; i < 8; i++) {
            crc = (crc & 1u) ? (uint16_t)((crc >> 1) ^ 0xA001u) : (uint16_t)(crc >> 1);
        }
    }
    return crc;
}

static void mb_reset(mb_context_t *ctx)
{
    memset(ctx->adu, 0, sizeof(ctx->adu));
    ctx->length = 0;
    ctx->state = MB_STATE_IDLE;
}

static bool mb_feed(mb_context_t *ctx, uint8_t byte)
{
    switch (ctx->state) {
    case MB_STATE_IDLE:
        if (byte != MB_ADDRESS) {
            return false;
        }
        ctx->state = MB_STATE_RECEIVING;
        /* fall through */
    case MB_STATE_RECEIVING:
        if (ctx->length >= MB_ADU_MAX) {
            ctx->state = MB_STATE_OVERRUN;
            return false;
        }
        ctx->adu[ctx->length++] = byte;
        return true;
    default:
        return false;
    }
}

static void mb_task(void *arg)
{
    mb_context_t *ctx = (mb_context_t *)arg;
    uint8_t byte;

    mb_reset(ctx);
    for (;;) {
        TickType_t wait = ctx->state == MB_STATE_IDLE ? portMAX_DELAY : MB_T35_TICKS;

        if (xQueueReceive(mb_rx, &byte, wait) == pdTRUE) {
            mb_feed(ctx, byte);
            continue;
        }
        if (ctx->state == MB_STATE_RECEIVING && ctx->length >= 2) {
            if (mb_crc16(ctx->adu, ctx->length) == 0) {
                ctx->frames++;
                ctx->state = MB_STATE_READY;
                xSemaphoreGive(mb_done);
            } else {
                ctx->crc_errors++;
            }
        }
        mb_reset(ctx);
    }
}

/* rtosim: interrupt 3 USART3 */
/* rtosim: interrupt 5 USART3 */
static void app_task(void *arg)
{
    (void)arg;
    configASSERT(xSemaphoreTake(mb_done, pdMS_TO_TICKS(40)) == pdTRUE);
    configASSERT(mb.frames == 1);
}

int main(void)
{
    mb_rx = xQueueCreate(16, sizeof(uint8_t));
    mb_done = xSemaphoreCreateBinary();
    mb_port_init(9600);
    xTaskCreate(mb_task, "modbus", 256, &mb, 3, NULL);
    xTaskCreate(app_task, "app", 256, NULL, 1, NULL);
    vTaskStartScheduler();
}

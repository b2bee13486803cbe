/* A NOR flash on SPI: commands from a table, busy polling with a deadline, one lock for the bus. */
#include "stm32h7xx_hal.h"
#include "FreeRTOS.h"
#include "task.h"
#include "semphr.h"
#include "queue.h"
#include <string.h>

#define CMD_WREN 0x06
#define CMD_RDSR 0x05
#define SR_WIP   0x01
#define SR_WEL   0x02

typedef enum { NOR_OK = 0, NOR_ERR_TIMEOUT = -1, NOR_ERR_BUS = -2, NOR_ERR_PARAM = -3 } nor_status_t;
typedef enum { NOR_OP_PAGE, NOR_OP_SECTOR, NOR_OP_CHIP, NOR_OP_COUNT } nor_op_t;

static const struct {
    uint8_t opcode;
    uint16_t poll_ms;
    uint32_t timeout_ms;
} nor_ops[NOR_OP_COUNT] = {
    [NOR_OP_PAGE]   = { 0x02, 1, 3 },
    [NOR_OP_SECTOR] = { 0x20, 5, 45 },
    [NOR_OP_CHIP]   = { 0xC7, 100, 10000 },
};

typedef struct nor_dev {
    SPI_HandleTypeDef *hspi;
    GPIO_TypeDef *cs_port;
    uint16_t cs_pin;
    SemaphoreHandle_t mutex;
    uint32_t size;
    struct { uint32_t erases, timeouts; } stats;
} nor_dev_t;

typedef struct { nor_op_t op; uint32_t address; } nor_request_t;

SPI_HandleTypeDef hspi1;
static nor_dev_t nor0;
static QueueHandle_t requests;
static volatile uint8_t status_register;   /* what the chip says */

#define NOR_SELECT(dev)   HAL_GPIO_WritePin((dev)->cs_port, (dev)->cs_pin, GPIO_PIN_RESET)
#define NOR_DESELECT(dev) HAL_GPIO_WritePin((dev)->cs_port, (dev)->cs_pin, GPIO_PIN_SET)

static nor_status_t nor_command(nor_dev_t *dev, const uint8_t *command, size_t length)
{
    NOR_SELECT(dev);
    HAL_StatusTypeDef status = HAL_SPI_Transmit(dev->hspi, command, (uint16_t)length, 10);
    NOR_DESELECT(dev);
    return status == HAL_OK ? NOR_OK : NOR_ERR_BUS;
}

static uint8_t nor_read_status(nor_dev_t *dev)
{
#ifdef RTOSIM
    (void)dev;
    return status_register;
#else
    uint8_t command = CMD_RDSR, value = 0;
    NOR_SELECT(dev);
    HAL_SPI_Transmit(dev->hspi, &command, 1, 10);
    HAL_SPI_Receive(dev->hspi, &value, 1, 10);
    NOR_DESELECT(dev);
    return value;
#endif
}

static nor_status_t nor_wait_ready(nor_dev_t *dev, uint32_t poll_ms, uint32_t timeout_ms)
{
    const TickType_t start = xTaskGetTickCount();

    while (nor_read_status(dev) & SR_WIP) {
        if ((xTaskGetTickCount() - start) > pdMS_TO_TICKS(timeout_ms)) {
            dev->stats.timeouts++;
            return NOR_ERR_TIMEOUT;
        }
        vTaskDelay(pdMS_TO_TICKS(poll_ms));
    }
    return NOR_OK;
}

nor_status_t nor_erase(nor_dev_t *dev, nor_op_t op, uint32_t address)
{
    uint8_t command[4];
    nor_status_t result;

    if (dev == NULL || op >= NOR_OP_COUNT) {
        return NOR_ERR_PARAM;
    }
    if (xSemaphoreTake(dev->mutex, pdMS_TO_TICKS(100)) != pdTRUE) {
        return NOR_ERR_TIMEOUT;
    }
    command[0] = CMD_WREN;
    result = nor_command(dev, command, 1);
    if (result == NOR_OK) {
        command[0] = nor_ops[op].opcode;
        command[1] = (uint8_t)(address >> 16);
        command[2] = (uint8_t)(address >> 8);
        command[3] = (uint8_t)address;
        result = nor_command(dev, command, sizeof(command));
    }
    if (result == NOR_OK) {
        status_register |= SR_WIP;
        result = nor_wait_ready(dev, nor_ops[op].poll_ms, nor_ops[op].timeout_ms);
    }
    if (result == NOR_OK) {
        dev->stats.erases++;
    }
    xSemaphoreGive(dev->mutex);
    return result;
}

static void storage_task(void *argument)
{
    nor_dev_t *dev = argument;
    nor_request_t request;

    for (;;) {
        if (xQueueReceive(requests, &request, portMAX_DELAY) == pdTRUE) {
            nor_status_t status = nor_erase(dev, NOR_OP_SECTOR, request.address);
            configASSERT(status != NOR_ERR_BUS);
        }
    }
}

static void app_task(void *argument)
{
    nor_request_t request = { NOR_OP_SECTOR, 0x1000 };

    (void)argument;
    xQueueSend(requests, &request, portMAX_DELAY);
    vTaskDelay(pdMS_TO_TICKS(60));
    configASSERT(nor0.stats.erases == 1 && nor0.stats.timeouts == 0);
    vTaskDelete(NULL);
}

/* the chip is ready */
void chip_ready_ISR(void) { status_register &= (uint8_t)~SR_WIP; }

static void nor_init(nor_dev_t *dev, SPI_HandleTypeDef *hspi, GPIO_TypeDef *port, uint16_t pin, uint32_t size)
{
    memset(dev, 0, sizeof(*dev));
    dev->hspi = hspi;
    dev->cs_port = port;
    dev->cs_pin = pin;
    dev->size = size;
    dev->mutex = xSemaphoreCreateMutex();
    configASSERT(dev->mutex != NULL);
}

int main(void)
{
    HAL_Init();
    SystemClock_Config();
    MX_SPI1_Init();
    nor_init(&nor0, &hspi1, GPIOB, 1u << 6, 8u * 1024 * 1024);
    requests = xQueueCreate(4, sizeof(nor_request_t));
    xTaskCreate(storage_task, "storage", 512, &nor0, 2, NULL);
    xTaskCreate(app_task, "app", 256, NULL, 1, NULL);
    vTaskStartScheduler();
    for (;;) { }
}

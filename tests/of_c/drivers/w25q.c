/* SPI NOR flash on SPI1 with DMA: W25Qxx, HAL style. */
#include "FreeRTOS.h"
#include "task.h"
#include "semphr.h"
#include "stm32f4xx_hal.h"

#define W25Q_CMD_WREN      0x06u
#define W25Q_CMD_RDSR1     0x05u
#define W25Q_CMD_PP        0x02u
#define W25Q_CMD_JEDEC     0x9Fu
#define W25Q_SR1_BUSY      0x01u
#define W25Q_TIMEOUT_MS    50u
#define W25Q_PAGE          256u

typedef enum {
    W25Q_OK = 0,
    W25Q_ERR_TIMEOUT = -1,
    W25Q_ERR_BUS = -2,
    W25Q_ERR_ID = -3,
} w25q_status_t;

typedef enum { W25Q_STATE_RESET, W25Q_STATE_READY, W25Q_STATE_BUSY } w25q_state_t;

typedef struct {
    SPI_HandleTypeDef  *hspi;
    SemaphoreHandle_t   lock;
    SemaphoreHandle_t   dma_done;
    volatile w25q_state_t state;
    volatile uint8_t    dma_error;
    uint32_t            jedec_id;
    uint8_t             tx[4];
    uint8_t             rx[4];
} w25q_t;

extern SPI_HandleTypeDef hspi1;
static w25q_t flash;

void HAL_SPI_TxRxCpltCallback(SPI_HandleTypeDef *hspi)
{
    BaseType_t woken = pdFALSE;
    if (hspi == flash.hspi) {
        xSemaphoreGiveFromISR(flash.dma_done, &woken);
        portYIELD_FROM_ISR(woken);
    }
}

void HAL_SPI_ErrorCallback(SPI_HandleTypeDef *hspi)
{
    BaseType_t woken = pdFALSE;
    flash.dma_error = 1;
    xSemaphoreGiveFromISR(flash.dma_done, &woken);
    portYIELD_FROM_ISR(woken);
}

#ifdef RTOSIM
static HAL_StatusTypeDef spi_dma_stub(w25q_t *dev, uint8_t *tx, uint8_t *rx, uint16_t n)
{
    (void)dev;
    switch (tx[0]) {
    case W25Q_CMD_JEDEC: rx[1] = 0xEF; rx[2] = 0x40; rx[3] = 0x18; break;
    case W25Q_CMD_RDSR1: rx[1] = 0; break;
    default: break;
    }
    return HAL_OK;
}
#define HAL_SPI_TransmitReceive_DMA(h, tx, rx, n) spi_dma_stub(&flash, tx, rx, n)
#endif
/* rtosim: interrupt 1 HAL_SPI_TxRxCplt */
/* rtosim: interrupt 3 HAL_SPI_TxRxCplt */
/* rtosim: interrupt 5 HAL_SPI_TxRxCplt */
/* rtosim: interrupt 7 HAL_SPI_TxRxCplt */
static inline void cs_low(void)  { HAL_GPIO_WritePin(GPIOA, GPIO_PIN_4, GPIO_PIN_RESET); }
static inline void cs_high(void) { HAL_GPIO_WritePin(GPIOA, GPIO_PIN_4, GPIO_PIN_SET); }

static w25q_status_t w25q_xfer(w25q_t *dev, uint16_t len)
{
    w25q_status_t st = W25Q_OK;

    dev->dma_error = 0;
    cs_low();
    if (HAL_SPI_TransmitReceive_DMA(dev->hspi, dev->tx, dev->rx, len) != HAL_OK) {
        cs_high();
        return W25Q_ERR_BUS;
    }
    if (xSemaphoreTake(dev->dma_done, pdMS_TO_TICKS(W25Q_TIMEOUT_MS)) != pdTRUE) {
        HAL_SPI_Abort(dev->hspi);
        st = W25Q_ERR_TIMEOUT;
    } else if (dev->dma_error) {
        st = W25Q_ERR_BUS;
    }
    cs_high();
    return st;
}

static w25q_status_t w25q_read_id(w25q_t *dev)
{
    dev->tx[0] = W25Q_CMD_JEDEC;
    w25q_status_t st = w25q_xfer(dev, 4);
    if (st < 0)
        return st;
    dev->jedec_id = ((uint32_t)dev->rx[1] << 16) | ((uint32_t)dev->rx[2] << 8) | dev->rx[3];
    return (dev->jedec_id >> 16) == 0xEF ? W25Q_OK : W25Q_ERR_ID;
}

static w25q_status_t w25q_wait_ready(w25q_t *dev)
{
    uint32_t tries = 5;
    do {
        dev->tx[0] = W25Q_CMD_RDSR1;
        w25q_status_t st = w25q_xfer(dev, 2);
        if (st != W25Q_OK)
            return st;
        if ((dev->rx[1] & W25Q_SR1_BUSY) == 0)
            return W25Q_OK;
        vTaskDelay(pdMS_TO_TICKS(1));
    } while (--tries);
    return W25Q_ERR_TIMEOUT;
}

w25q_status_t w25q_init(w25q_t *dev, SPI_HandleTypeDef *hspi)
{
    dev->hspi = hspi;
    dev->lock = xSemaphoreCreateMutex();
    dev->dma_done = xSemaphoreCreateBinary();
    configASSERT(dev->lock && dev->dma_done);
    dev->state = W25Q_STATE_RESET;
    return W25Q_OK;
}

w25q_status_t w25q_program(w25q_t *dev, uint32_t addr, const uint8_t *data, uint16_t len)
{
    w25q_status_t st;

    if (dev->state != W25Q_STATE_READY || len > W25Q_PAGE)
        return W25Q_ERR_BUS;
    xSemaphoreTake(dev->lock, portMAX_DELAY);
    dev->state = W25Q_STATE_BUSY;
    dev->tx[0] = W25Q_CMD_WREN;
    st = w25q_xfer(dev, 1);
    if (st == W25Q_OK) {
        dev->tx[0] = W25Q_CMD_PP;
        dev->tx[1] = (uint8_t)(addr >> 16);
        dev->tx[2] = (uint8_t)(addr >> 8);
        dev->tx[3] = (uint8_t)addr;
        st = w25q_xfer(dev, 4);
    }
    if (st == W25Q_OK)
        st = w25q_wait_ready(dev);
    dev->state = W25Q_STATE_READY;
    xSemaphoreGive(dev->lock);
    return st;
}

static void storage_task(void *arg)
{
    w25q_t *dev = (w25q_t *)arg;
    static uint8_t record[16];
    w25q_status_t st;

    st = w25q_read_id(dev);
    if (st != W25Q_OK) {
        Error_Handler();
    }
    dev->state = W25Q_STATE_READY;
    st = w25q_program(dev, 0x1000, record, sizeof(record));
    configASSERT(st == W25Q_OK);
    vTaskDelete(NULL);
}

int main(void)
{
    HAL_Init();
    SystemClock_Config();
    MX_SPI1_Init();
    w25q_init(&flash, &hspi1);
    xTaskCreate(storage_task, "storage", 256, &flash, tskIDLE_PRIORITY + 2, NULL);
    vTaskStartScheduler();
    for (;;)
        ;
}

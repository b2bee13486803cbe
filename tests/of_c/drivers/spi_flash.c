/* SPI flash driver with DMA, after the pattern of the FreeRTOS documentation. */
#include "FreeRTOS.h"
#include "task.h"
#include "semphr.h"
#include "stm32f4xx_hal.h"
#include <string.h>

#define SPI_TIMEOUT_MS   10
#define CMD_READ_ID      0x9F
#define CMD_WREN         0x06

extern SPI_HandleTypeDef hspi1;
static SemaphoreHandle_t spi_mutex;
static volatile TaskHandle_t xTaskToNotify = NULL;
static uint8_t tx_buf[16], rx_buf[16];

typedef enum { FLASH_OK = 0, FLASH_ERR_HAL, FLASH_ERR_TIMEOUT } flash_status_t;

/* rtosim: interrupt 3 HAL_SPI_TxRxCpltCallback */
/* rtosim: interrupt 26 HAL_SPI_TxRxCpltCallback */
/* rtosim: interrupt 49 HAL_SPI_TxRxCpltCallback */
void HAL_SPI_TxRxCpltCallback(SPI_HandleTypeDef *hspi)
{
    BaseType_t xHigherPriorityTaskWoken = pdFALSE;

    if (hspi->Instance == SPI1) { /* rtosim: holds */
        configASSERT(xTaskToNotify != NULL);
        vTaskNotifyGiveFromISR(xTaskToNotify, &xHigherPriorityTaskWoken);
        xTaskToNotify = NULL;
    }
    portYIELD_FROM_ISR(xHigherPriorityTaskWoken);
}

static flash_status_t spi_transfer(uint8_t *tx, uint8_t *rx, uint16_t len)
{
    uint32_t ulNotificationValue;
    const TickType_t xMaxBlockTime = pdMS_TO_TICKS(SPI_TIMEOUT_MS);

    configASSERT(xTaskToNotify == NULL);
    xTaskToNotify = xTaskGetCurrentTaskHandle();
    HAL_GPIO_WritePin(FLASH_CS_GPIO_Port, FLASH_CS_Pin, GPIO_PIN_RESET);
    if (HAL_SPI_TransmitReceive_DMA(&hspi1, tx, rx, len) != HAL_OK) {
        xTaskToNotify = NULL;
        return FLASH_ERR_HAL;
    }
    ulNotificationValue = ulTaskNotifyTake(pdTRUE, xMaxBlockTime);
    HAL_GPIO_WritePin(FLASH_CS_GPIO_Port, FLASH_CS_Pin, GPIO_PIN_SET);
    if (ulNotificationValue == 1) {
        return FLASH_OK;
    }
    HAL_SPI_Abort(&hspi1);
    xTaskToNotify = NULL;
    return FLASH_ERR_TIMEOUT;
}

flash_status_t flash_read_id(uint32_t *id)
{
    flash_status_t status;

    if (xSemaphoreTake(spi_mutex, portMAX_DELAY) != pdTRUE) {
        return FLASH_ERR_TIMEOUT;
    }
    memset(tx_buf, 0, sizeof(tx_buf));
    tx_buf[0] = CMD_READ_ID;
    status = spi_transfer(tx_buf, rx_buf, 4);
    if (status == FLASH_OK) {
        *id = ((uint32_t)rx_buf[1] << 16) | ((uint32_t)rx_buf[2] << 8) | rx_buf[3];
    }
    xSemaphoreGive(spi_mutex);
    return status;
}

static void vFlashTask(void *pvParameters)
{
    uint32_t id;

    for (int i = 0; i < 3; i++) {
        if (flash_read_id(&id) != FLASH_OK) {
            Error_Handler();
        }
        vTaskDelay(pdMS_TO_TICKS(20));
    }
    vTaskDelete(NULL);
}

void MX_FREERTOS_Init(void)
{
    spi_mutex = xSemaphoreCreateMutex();
    xTaskCreate(vFlashTask, "flash", 256, NULL, 3, NULL);
}

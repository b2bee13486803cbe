/**
  * @file    uart_dma.c
  * @brief   Reception of lines over USART2 with DMA and idle-line detection.
  */
#include "main.h"
#include "FreeRTOS.h"
#include "task.h"
#include "semphr.h"
#include <string.h>
#include <stdio.h>

#define RX_BUF_SIZE        64U
#define RX_TIMEOUT_MS      1000U
#define UART_TASK_PRIORITY (tskIDLE_PRIORITY + 3)

extern UART_HandleTypeDef huart2;
extern DMA_HandleTypeDef hdma_usart2_rx;

static uint8_t rx_buf[RX_BUF_SIZE];
static volatile uint16_t rx_len = 0;
static volatile uint32_t rx_errors = 0;

static SemaphoreHandle_t xRxDone = NULL;
static TaskHandle_t xUartTask = NULL;

static void UART_Start(void)
{
  if (HAL_UARTEx_ReceiveToIdle_DMA(&huart2, rx_buf, RX_BUF_SIZE) != HAL_OK)
  {
    Error_Handler();
  }
  __HAL_DMA_DISABLE_IT(&hdma_usart2_rx, DMA_IT_HT);
}

/* called by the HAL in the interrupt of the DMA channel */
void HAL_UARTEx_RxEventCallback(UART_HandleTypeDef *huart, uint16_t Size)
{
  BaseType_t xHigherPriorityTaskWoken = pdFALSE;

  if (huart->Instance == USART2)
  { /* rtosim: holds */
    rx_len = Size;
    xSemaphoreGiveFromISR(xRxDone, &xHigherPriorityTaskWoken);
  }

  portYIELD_FROM_ISR(xHigherPriorityTaskWoken);
}

void HAL_UART_ErrorCallback(UART_HandleTypeDef *huart)
{
  if (huart->Instance == USART2)
  {
    rx_errors++;
  }
}

static void ProcessLine(const uint8_t *data, uint16_t len)
{
  for (uint16_t i = 0; i < len; i++)
  {
    if (data[i] == '\n')
    {
      printf("line of %u bytes\r\n", i);
      break;
    }
  }
}

static void UartRxTask(void *argument)
{
  (void)argument;

  UART_Start();

  for (;;)
  {
    if (xSemaphoreTake(xRxDone, pdMS_TO_TICKS(RX_TIMEOUT_MS)) == pdTRUE)
    {
      uint16_t len = rx_len;

      /* rtosim: work 3 */
      ProcessLine(rx_buf, len);
      memset(rx_buf, 0, sizeof(rx_buf));
      UART_Start();
    }
    else
    {
      /* nothing for a second: the line may be stuck */
      HAL_UART_AbortReceive(&huart2);
      UART_Start();
    }
  }
}

void UART_Init(void)
{
  xRxDone = xSemaphoreCreateBinary();
  configASSERT(xRxDone != NULL);

  if (xTaskCreate(UartRxTask, "uart", 256, NULL, UART_TASK_PRIORITY, &xUartTask) != pdPASS)
  {
    Error_Handler();
  }
}

#ifdef RTOSIM
static void check(void *p)
{
  rtosim_work(20);
  configASSERT(xSemaphoreTake(xRxDone, 0) == pdFALSE);
}

int main(void)
{
  UART_Init();
  xTaskCreate(check, "check", 128, NULL, 1, NULL);
  vTaskStartScheduler();
}
#endif

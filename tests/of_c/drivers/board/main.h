#include <stdint.h>
typedef enum { HAL_OK, HAL_ERROR } HAL_StatusTypeDef;
typedef struct { int Instance; } UART_HandleTypeDef;
typedef struct { int Instance; } DMA_HandleTypeDef;
#define USART2 2
#define DMA_IT_HT 4
HAL_StatusTypeDef HAL_UARTEx_ReceiveToIdle_DMA(UART_HandleTypeDef *huart, uint8_t *data, uint16_t size);
HAL_StatusTypeDef HAL_UART_AbortReceive(UART_HandleTypeDef *huart);
void __HAL_DMA_DISABLE_IT(DMA_HandleTypeDef *handle, uint32_t which);
void Error_Handler(void);

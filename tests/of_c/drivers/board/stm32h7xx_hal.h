#include <stdint.h>
#include <stdbool.h>
typedef enum { HAL_OK, HAL_ERROR, HAL_BUSY, HAL_TIMEOUT } HAL_StatusTypeDef;
typedef struct { int Instance; } SPI_HandleTypeDef;
typedef struct { volatile uint32_t ODR, BSRR; } GPIO_TypeDef;
#define GPIOB ((GPIO_TypeDef *)0x58020400)
typedef enum { GPIO_PIN_RESET, GPIO_PIN_SET } GPIO_PinState;
HAL_StatusTypeDef HAL_SPI_Transmit(SPI_HandleTypeDef *hspi, const uint8_t *pData, uint16_t Size, uint32_t Timeout);
HAL_StatusTypeDef HAL_SPI_Receive(SPI_HandleTypeDef *hspi, uint8_t *pData, uint16_t Size, uint32_t Timeout);
void HAL_GPIO_WritePin(GPIO_TypeDef *GPIOx, uint16_t GPIO_Pin, GPIO_PinState PinState);
void HAL_Init(void); void SystemClock_Config(void); void MX_SPI1_Init(void);

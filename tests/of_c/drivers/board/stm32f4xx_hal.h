#include <stdint.h>
typedef enum { HAL_OK, HAL_ERROR, HAL_BUSY, HAL_TIMEOUT } HAL_StatusTypeDef;
typedef struct { volatile uint32_t CR1; } SPI_TypeDef;
typedef struct { SPI_TypeDef *Instance; } SPI_HandleTypeDef;
typedef struct { int Instance; } CAN_HandleTypeDef;
typedef struct { uint32_t StdId, DLC; } CAN_RxHeaderTypeDef;
typedef struct { volatile uint32_t BSRR; } GPIO_TypeDef;
#define SPI1 ((SPI_TypeDef *)0x40013000)
#define GPIOA ((GPIO_TypeDef *)0x40020000)
#define FLASH_CS_GPIO_Port GPIOA
#define FLASH_CS_Pin 4
#define CAN_RX_FIFO0 0
#define CAN_IT_RX_FIFO0_MSG_PENDING 2
enum { GPIO_PIN_RESET, GPIO_PIN_SET };
void HAL_GPIO_WritePin(GPIO_TypeDef *port, uint16_t pin, int state);
HAL_StatusTypeDef HAL_SPI_TransmitReceive_DMA(SPI_HandleTypeDef *h, uint8_t *tx, uint8_t *rx, uint16_t n);
HAL_StatusTypeDef HAL_SPI_Abort(SPI_HandleTypeDef *h);
uint32_t HAL_CAN_GetRxFifoFillLevel(CAN_HandleTypeDef *h, uint32_t fifo);
HAL_StatusTypeDef HAL_CAN_GetRxMessage(CAN_HandleTypeDef *h, uint32_t fifo, CAN_RxHeaderTypeDef *header, uint8_t *data);
HAL_StatusTypeDef HAL_CAN_Start(CAN_HandleTypeDef *h);
HAL_StatusTypeDef HAL_CAN_ActivateNotification(CAN_HandleTypeDef *h, uint32_t which);
void HAL_Init(void); void SystemClock_Config(void); void Error_Handler(void); void motor_stop(void);

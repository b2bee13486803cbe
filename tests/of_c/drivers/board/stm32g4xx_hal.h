/* What these drivers use of ST's HAL. */
#include <stdint.h>
#include <stdbool.h>
#include <stddef.h>
typedef enum { HAL_OK, HAL_ERROR, HAL_BUSY, HAL_TIMEOUT } HAL_StatusTypeDef;
typedef struct { volatile uint32_t ISR, IER, CR, CFGR; } ADC_TypeDef;
typedef struct { volatile uint32_t CCR, CNDTR, CPAR, CMAR; } DMA_Channel_TypeDef;
typedef struct { volatile uint32_t CR1, CR2, SMCR, DIER, SR, CNT, ARR; } TIM_TypeDef;
typedef struct { volatile uint32_t TR, DR, SSR, CR, ALRMAR, SR, SCR; } RTC_TypeDef;
typedef struct { DMA_Channel_TypeDef *Instance; uint32_t State; } DMA_HandleTypeDef;
typedef struct { ADC_TypeDef *Instance; DMA_HandleTypeDef *DMA_Handle; uint32_t State, ErrorCode; } ADC_HandleTypeDef;
typedef struct { TIM_TypeDef *Instance; uint32_t State; } TIM_HandleTypeDef;
typedef struct { RTC_TypeDef *Instance; uint32_t State; } RTC_HandleTypeDef;
typedef struct { uint8_t Hours, Minutes, Seconds; uint32_t SubSeconds; } RTC_TimeTypeDef;
typedef struct { RTC_TimeTypeDef AlarmTime; uint32_t AlarmMask, Alarm; } RTC_AlarmTypeDef;
#define ADC1 ((ADC_TypeDef *)0x50000000)
#define TIM2 ((TIM_TypeDef *)0x40000000)
#define RTC ((RTC_TypeDef *)0x40002800)
#define RTC_FORMAT_BIN 0u
#define RTC_ALARM_A 0x100u
#define RTC_ALARMMASK_DATEWEEKDAY 0x80000000u
#define RTC_SR_ALRAF (1u << 0)
#define RTC_SCR_CALRAF (1u << 0)
#define TIM_SR_UIF (1u << 0)
#define TIM_CR1_DIR (1u << 4)
#define TIM_CHANNEL_ALL 0x3Cu
void HAL_Init(void);
HAL_StatusTypeDef HAL_ADC_Init(ADC_HandleTypeDef *hadc);
HAL_StatusTypeDef HAL_ADC_Start_DMA(ADC_HandleTypeDef *hadc, uint32_t *data, uint32_t length);
HAL_StatusTypeDef HAL_ADC_Stop_DMA(ADC_HandleTypeDef *hadc);
HAL_StatusTypeDef HAL_TIM_Base_Start(TIM_HandleTypeDef *htim);
HAL_StatusTypeDef HAL_TIM_Encoder_Start(TIM_HandleTypeDef *htim, uint32_t channel);
HAL_StatusTypeDef HAL_RTC_GetTime(RTC_HandleTypeDef *hrtc, RTC_TimeTypeDef *time, uint32_t format);
HAL_StatusTypeDef HAL_RTC_SetAlarm_IT(RTC_HandleTypeDef *hrtc, RTC_AlarmTypeDef *alarm, uint32_t format);
void Error_Handler(void);
void SystemClock_Config(void);
void motor_stop(void);

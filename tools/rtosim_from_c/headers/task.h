/* What rtosim-from-c reads in place of task.h. */
#ifndef RTOSIM_TASK_H
#define RTOSIM_TASK_H

#include "FreeRTOS.h"

#define tskIDLE_PRIORITY ((UBaseType_t)0)

typedef enum { eNoAction, eSetBits, eIncrement, eSetValueWithOverwrite, eSetValueWithoutOverwrite } eNotifyAction;

BaseType_t xTaskCreate(TaskFunction_t function, const char *name, configSTACK_DEPTH_TYPE depth, void *parameters, UBaseType_t priority,
                       TaskHandle_t *handle);
TaskHandle_t xTaskCreateStatic(TaskFunction_t function, const char *name, uint32_t depth, void *parameters, UBaseType_t priority,
                               StackType_t *stack, StaticTask_t *buffer);
void vTaskDelete(TaskHandle_t task);
void vTaskStartScheduler(void);
TaskHandle_t xTaskGetCurrentTaskHandle(void);

void vTaskDelay(TickType_t ticks);
void vTaskDelayUntil(TickType_t *wake_time, TickType_t ticks);
BaseType_t xTaskDelayUntil(TickType_t *wake_time, TickType_t ticks);
void taskYIELD(void);
TickType_t xTaskGetTickCount(void);
TickType_t xTaskGetTickCountFromISR(void);
void vTaskSuspend(TaskHandle_t task);
void vTaskResume(TaskHandle_t task);
BaseType_t xTaskResumeFromISR(TaskHandle_t task);
void vTaskSuspendAll(void);
BaseType_t xTaskResumeAll(void);

void taskENTER_CRITICAL(void);
void taskEXIT_CRITICAL(void);
UBaseType_t taskENTER_CRITICAL_FROM_ISR(void);
void taskEXIT_CRITICAL_FROM_ISR(UBaseType_t state);
UBaseType_t portSET_INTERRUPT_MASK_FROM_ISR(void);
void portCLEAR_INTERRUPT_MASK_FROM_ISR(UBaseType_t state);
void taskDISABLE_INTERRUPTS(void);
void taskENABLE_INTERRUPTS(void);

BaseType_t xTaskNotifyGive(TaskHandle_t task);
BaseType_t xTaskNotify(TaskHandle_t task, uint32_t value, eNotifyAction action);
uint32_t ulTaskNotifyTake(BaseType_t clears, TickType_t wait);
BaseType_t xTaskNotifyWait(uint32_t clears_before, uint32_t clears_after, uint32_t *value, TickType_t wait);
BaseType_t xTaskNotifyStateClear(TaskHandle_t task);
uint32_t ulTaskNotifyValueClear(TaskHandle_t task, uint32_t bits);
void vTaskNotifyGiveFromISR(TaskHandle_t task, BaseType_t *woken);
BaseType_t xTaskNotifyFromISR(TaskHandle_t task, uint32_t value, eNotifyAction action, BaseType_t *woken);

/* refused, each with what to write in its place */
BaseType_t xTaskNotifyIndexed(TaskHandle_t task, UBaseType_t index, uint32_t value, eNotifyAction action);
BaseType_t xTaskNotifyIndexedFromISR(TaskHandle_t task, UBaseType_t index, uint32_t value, eNotifyAction action, BaseType_t *woken);
BaseType_t xTaskNotifyGiveIndexed(TaskHandle_t task, UBaseType_t index);
void vTaskNotifyGiveIndexedFromISR(TaskHandle_t task, UBaseType_t index, BaseType_t *woken);
uint32_t ulTaskNotifyTakeIndexed(UBaseType_t index, BaseType_t clears, TickType_t wait);
BaseType_t xTaskNotifyWaitIndexed(UBaseType_t index, uint32_t clears_before, uint32_t clears_after, uint32_t *value, TickType_t wait);
BaseType_t xTaskNotifyStateClearIndexed(TaskHandle_t task, UBaseType_t index);
uint32_t ulTaskNotifyValueClearIndexed(TaskHandle_t task, UBaseType_t index, uint32_t bits);
BaseType_t xTaskNotifyAndQuery(TaskHandle_t task, uint32_t value, eNotifyAction action, uint32_t *before);
BaseType_t xTaskNotifyAndQueryFromISR(TaskHandle_t task, uint32_t value, eNotifyAction action, uint32_t *before, BaseType_t *woken);
void vTaskPrioritySet(TaskHandle_t task, UBaseType_t priority);
BaseType_t xTaskAbortDelay(TaskHandle_t task);

#endif

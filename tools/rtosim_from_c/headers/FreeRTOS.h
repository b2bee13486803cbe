/* What rtosim-from-c reads in place of FreeRTOS.h: types, macros, and the prototypes of every call that a script has.
   Pointers of queues, semaphores, groups and tasks are of different types here, so that a compiler finds one in another's place. */
#ifndef RTOSIM_FREERTOS_H
#define RTOSIM_FREERTOS_H

#include <stdbool.h>
#include <stddef.h>
#include <stdint.h>

#if defined(__has_include)
#if __has_include("FreeRTOSConfig.h")
#include "FreeRTOSConfig.h"
#endif
#endif

#ifndef configTICK_RATE_HZ
#define configTICK_RATE_HZ 1000
#endif
#ifndef configMINIMAL_STACK_SIZE
#define configMINIMAL_STACK_SIZE 128
#endif
#ifndef configMAX_PRIORITIES
#define configMAX_PRIORITIES 32
#endif
#ifndef configTIMER_TASK_PRIORITY
#define configTIMER_TASK_PRIORITY 31
#endif
#ifndef configTIMER_QUEUE_LENGTH
#define configTIMER_QUEUE_LENGTH 10
#endif

typedef int BaseType_t;
typedef unsigned int UBaseType_t;
typedef uint32_t TickType_t;
typedef uint32_t EventBits_t;
typedef uint32_t StackType_t;
typedef uint32_t configSTACK_DEPTH_TYPE;

typedef struct rtosim_queue *QueueHandle_t;
typedef struct rtosim_semaphore *SemaphoreHandle_t;
typedef struct rtosim_group *EventGroupHandle_t;
typedef struct rtosim_task *TaskHandle_t;
typedef struct rtosim_timer *TimerHandle_t;
typedef struct { uint32_t words[20]; } StaticQueue_t;
typedef struct { uint32_t words[20]; } StaticSemaphore_t;
typedef struct { uint32_t words[20]; } StaticEventGroup_t;
typedef struct { uint32_t words[40]; } StaticTask_t;
typedef void (*TaskFunction_t)(void *);

/* the daemon, which sets and clears bits for handlers */
enum { rtosim_daemon_priority = (configTIMER_TASK_PRIORITY), rtosim_daemon_length = (configTIMER_QUEUE_LENGTH) };

#define pdFALSE ((BaseType_t)0)
#define pdTRUE ((BaseType_t)1)
#define pdFAIL pdFALSE
#define pdPASS pdTRUE
#define errQUEUE_EMPTY ((BaseType_t)0)
#define errQUEUE_FULL ((BaseType_t)0)
#define portMAX_DELAY ((TickType_t)0xffffffffU)
#define portTICK_PERIOD_MS ((TickType_t)1000U / (TickType_t)(configTICK_RATE_HZ))
#define pdMS_TO_TICKS(milliseconds) ((TickType_t)(((uint64_t)(milliseconds) * (uint64_t)(configTICK_RATE_HZ)) / (uint64_t)1000U))
#define pdTICKS_TO_MS(ticks) ((TickType_t)(((uint64_t)(ticks) * (uint64_t)1000U) / (uint64_t)(configTICK_RATE_HZ)))
#define portYIELD() taskYIELD()
#define portTASK_FUNCTION(function, parameters) void function(void *parameters)
#define portTASK_FUNCTION_PROTO(function, parameters) void function(void *parameters)

#undef configASSERT
void configASSERT(int condition);

void portYIELD_FROM_ISR(BaseType_t switches);
void portEND_SWITCHING_ISR(BaseType_t switches);
void portENTER_CRITICAL(void);
void portEXIT_CRITICAL(void);

/* computing that takes this many ticks; a mark in the trace */
void rtosim_work(unsigned int ticks);
void rtosim_mark(unsigned int number);

#endif

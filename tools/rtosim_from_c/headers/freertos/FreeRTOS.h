/* What rtosim-from-c reads in place of FreeRTOS.h of ESP-IDF, which keeps the headers in a folder. */
#ifndef RTOSIM_FREERTOS_FREERTOS_H
#define RTOSIM_FREERTOS_FREERTOS_H

#include "../FreeRTOS.h"
#include "../task.h"
#include "../limits.h"

/* critical sections take a spinlock there, which one core doesn't need */
typedef int portMUX_TYPE;
#define portMUX_INITIALIZER_UNLOCKED 0
#define portENTER_CRITICAL(lock) taskENTER_CRITICAL()
#define portEXIT_CRITICAL(lock) taskEXIT_CRITICAL()
#define portENTER_CRITICAL_ISR(lock) ((void)taskENTER_CRITICAL_FROM_ISR())
#define portEXIT_CRITICAL_ISR(lock) taskEXIT_CRITICAL_FROM_ISR(0)
/* may have no argument there */
#define portYIELD_FROM_ISR(...) portEND_SWITCHING_ISR((0, ##__VA_ARGS__))
#define IRAM_ATTR
#define DRAM_ATTR
#define portTICK_RATE_MS portTICK_PERIOD_MS
#define tskNO_AFFINITY 0x7fffffff
#define xTaskCreatePinnedToCore(function, name, depth, parameters, priority, handle, core) \
    xTaskCreate(function, name, depth, parameters, priority, handle)

#endif

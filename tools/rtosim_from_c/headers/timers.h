/* Software timers have no op: each call is refused, with what to write in its place. */
#ifndef RTOSIM_TIMERS_H
#define RTOSIM_TIMERS_H

#include "FreeRTOS.h"

typedef void (*TimerCallbackFunction_t)(TimerHandle_t timer);
TimerHandle_t xTimerCreate(const char *name, TickType_t period, BaseType_t repeats, void *id, TimerCallbackFunction_t function);
BaseType_t xTimerStart(TimerHandle_t timer, TickType_t wait);
BaseType_t xTimerStop(TimerHandle_t timer, TickType_t wait);
BaseType_t xTimerReset(TimerHandle_t timer, TickType_t wait);

#endif

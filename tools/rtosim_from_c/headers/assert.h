/* An assertion is a check of the script. */
#ifndef RTOSIM_ASSERT_H
#define RTOSIM_ASSERT_H

#include "FreeRTOS.h"

#define assert(condition) configASSERT(condition)

#endif

#include "../timers.h"

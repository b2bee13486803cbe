#include "../queue.h"

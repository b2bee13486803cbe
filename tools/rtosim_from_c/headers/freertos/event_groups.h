#include "../event_groups.h"

/* Of <stdlib.h> a script has `abort`, a check that fails. */
#ifndef RTOSIM_STDLIB_H
#define RTOSIM_STDLIB_H

#include <stddef.h>

void abort(void);

#endif

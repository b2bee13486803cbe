/* What writes for people has no effect on the tasks, and is left out of a script. */
#ifndef RTOSIM_STDIO_H
#define RTOSIM_STDIO_H

#include <stddef.h>

int printf(const char *format, ...);
int puts(const char *text);
int putchar(int character);
int snprintf(char *to, size_t size, const char *format, ...);
int sprintf(char *to, const char *format, ...);

#endif

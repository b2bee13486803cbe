/* The limits of the integers of a machine with 32 bits. */
#ifndef RTOSIM_LIMITS_H
#define RTOSIM_LIMITS_H

#define UCHAR_MAX 255
#define SHRT_MAX 32767
#define USHRT_MAX 65535
#define INT_MAX 2147483647
#define INT_MIN (-INT_MAX - 1)
#define UINT_MAX 4294967295U
#define LONG_MAX 2147483647L
#define ULONG_MAX 4294967295UL

#endif

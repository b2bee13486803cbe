#ifndef RTOSIM_STDDEF_H
#define RTOSIM_STDDEF_H

#ifdef __SIZE_TYPE__
typedef __SIZE_TYPE__ size_t;
#else
typedef unsigned int size_t;
#endif
#define NULL ((void *)0)

#endif

/* The toolchain has no C headers. Those in this folder declare the few names that the programs in calls/ use, for its own compiler only. */
#ifndef CALLS_STDDEF_H
#define CALLS_STDDEF_H
typedef __SIZE_TYPE__ size_t;
#endif

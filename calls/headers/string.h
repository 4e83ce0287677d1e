/* See stddef.h in this folder. */
#ifndef CALLS_STRING_H
#define CALLS_STRING_H
#include <stddef.h>
int memcmp(const void *, const void *, size_t);
void *memcpy(void *, const void *, size_t);
void *memset(void *, int, size_t);
#endif

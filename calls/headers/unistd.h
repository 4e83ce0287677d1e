/* See stddef.h in this folder. */
#ifndef CALLS_UNISTD_H
#define CALLS_UNISTD_H
#include <stddef.h>
typedef long ssize_t;
ssize_t read(int, void *, size_t);
#endif

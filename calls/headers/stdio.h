/* See stddef.h in this folder. */
#ifndef CALLS_STDIO_H
#define CALLS_STDIO_H
#include <stddef.h>
typedef struct _IO_FILE FILE;
extern FILE *stdin;
size_t fread(void *, size_t, size_t, FILE *);
int printf(const char *, ...);
#endif

#ifndef STDIO_H
#define STDIO_H
#include <stddef.h>
typedef struct _IO_FILE FILE;
extern FILE *stderr;
int printf(const char *, ...);
int fprintf(FILE *, const char *, ...);
#endif

#ifndef STDLIB_H
#define STDLIB_H
#include <stddef.h>
void *calloc(size_t, size_t);
void free(void *);
_Noreturn void exit(int);
#endif

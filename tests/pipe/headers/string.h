#ifndef STRING_H
#define STRING_H
#include <stddef.h>
void *memset(void *, int, size_t);
#endif

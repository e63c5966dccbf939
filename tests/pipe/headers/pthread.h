#ifndef PTHREAD_H
#define PTHREAD_H
#include <stddef.h>
typedef unsigned long pthread_t;
typedef union {
    char bytes[56];
    long align;
} pthread_attr_t;
int pthread_attr_init(pthread_attr_t *);
int pthread_attr_setstack(pthread_attr_t *, void *, size_t);
int pthread_create(pthread_t *, const pthread_attr_t *, void *(*)(void *), void *);
int pthread_join(pthread_t, void **);
#endif

#ifndef SIGNAL_H
#define SIGNAL_H
#define SIGBUS 7
#define SIGSEGV 11
void (*signal(int, void (*)(int)))(int);
#endif

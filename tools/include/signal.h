#ifndef SABER_SIGNAL_H
#define SABER_SIGNAL_H
typedef int sig_atomic_t;
#define SIG_DFL ((void (*)(int))0)
#define SIG_IGN ((void (*)(int))1)
#define SIGABRT 6
#define SIGFPE 8
#define SIGINT 2
#define SIGSEGV 11
#define SIGTERM 15
#define SIGPIPE 13
void (*signal(int, void (*)(int)))(int);
int raise(int);
#endif

/* What our C programs use of signal.h, for x86-64 Linux alone. */
#ifndef TURRETHOG_SIGNAL
#define TURRETHOG_SIGNAL
#define SIGPIPE 13
#define SIG_IGN ((void (*)(int))1)
void (*signal(int number, void (*handler)(int)))(int);
#endif

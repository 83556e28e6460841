/* A large batch takes seconds, to be read and to be checked. From the first on, a terminal shows that something is done: a dot for each second, on standard
   error. */
#define _POSIX_C_SOURCE 200809L
#include "desk.h"

#include <errno.h>
#include <signal.h>
#include <string.h>
#include <unistd.h>

/* Whether the alarm is this file's own: only then may it be set again, or taken back. */
static volatile sig_atomic_t waiting;
static volatile sig_atomic_t shown;
static const char *first_words;

/* A second is over. The library keeps no state, so it may be interrupted anywhere; a read goes on. One that is over just as the waiting ends doesn't count. */
static void each_second(int signal_number)
{
    int error = errno;
    const char *words = !shown ? first_words : ".";
    (void)signal_number;
    if (!waiting)
        return;
    if (write(STDERR_FILENO, words, strlen(words)) >= 0)
        shown = 1;
    alarm(1);
    errno = error;
}

void begin_waiting(void)
{
    struct sigaction action;
    if (!isatty(STDERR_FILENO))
        return;
    shown = 0;
    first_words = either("desk: reading and checking the batch .", "desk: čte se a kontroluje dávka .");
    memset(&action, 0, sizeof action);
    action.sa_handler = each_second;
    action.sa_flags = SA_RESTART;
    sigaction(SIGALRM, &action, NULL);
    waiting = 1;
    alarm(1);
}

/* Ends the line of dots, if there is one. Whatever is written comes after this. Where no waiting was begun, an alarm is of whoever started the program, and is
   left alone. */
void end_waiting(void)
{
    if (!waiting)
        return;
    waiting = 0;
    alarm(0);
    if (shown)
        fputc('\n', stderr);
    shown = 0;
}

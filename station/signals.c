/* signals.c - see signals.h. */
#include "signals.h"

#include <errno.h>
#include <signal.h>
#include <stddef.h>
#include <sys/select.h>
#include <unistd.h>

static volatile sig_atomic_t interrupted, ended;

static void on_interrupt(int number)
{
    (void)number;
    interrupted = 1;
}

static void on_end(int number)
{
    (void)number;
    ended = 1;
}

/* A signal that the program was started without (nohup) stays ignored. No
 * SA_RESTART: waiting for input has to end when a signal comes. */
static void catch_one(int number, void (*handler)(int))
{
    struct sigaction now, old;
    if (sigaction(number, NULL, &old) != 0 || old.sa_handler == SIG_IGN)
        return;
    now.sa_handler = handler;
    now.sa_flags = 0;
    (void)sigemptyset(&now.sa_mask);
    (void)sigaction(number, &now, NULL);
}

static void all(sigset_t *set)
{
    (void)sigemptyset(set);
    (void)sigaddset(set, SIGINT);
    (void)sigaddset(set, SIGTERM);
    (void)sigaddset(set, SIGHUP);
}

void signals_catch(void)
{
    sigset_t set;
    catch_one(SIGINT, on_interrupt);
    catch_one(SIGTERM, on_end);
    catch_one(SIGHUP, on_end);
    catch_one(SIGPIPE, SIG_IGN);
    all(&set);
    (void)sigprocmask(SIG_UNBLOCK, &set, NULL);
}

int signals_interrupted(void)
{
    int was = interrupted;
    interrupted = 0;
    return was;
}

int signals_ended(void)
{
    return ended;
}

/* Signals come in only while it waits, so that none can fall between the look
 * at the flags and the wait. */
int signals_wait_input(void)
{
    sigset_t set, before;
    int ready = 0;
    all(&set);
    (void)sigprocmask(SIG_BLOCK, &set, &before);
    while (!interrupted && !ended && ready == 0) {
        fd_set input;
        FD_ZERO(&input);
        FD_SET(STDIN_FILENO, &input);
        /* What else goes wrong here, the read then says. */
        ready = pselect(STDIN_FILENO + 1, &input, NULL, NULL, NULL, &before) >= 0 || errno != EINTR;
    }
    (void)sigprocmask(SIG_SETMASK, &before, NULL);
    return ready;
}

/* signals.h - Ctrl-C and the wish that the program end, as flags that are
 * looked at between turns and while waiting for input. */
#ifndef SIGNALS_H
#define SIGNALS_H

/* SIGINT interrupts; SIGTERM and SIGHUP end; SIGPIPE is a write that fails. */
void signals_catch(void);

int signals_interrupted(void); /* asking takes the flag down */
int signals_ended(void);       /* stays up */

/* Wait until standard input can be read: 1. A signal came first: 0. */
int signals_wait_input(void);

#endif

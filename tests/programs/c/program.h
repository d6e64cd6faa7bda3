/* What a program uses, and what it is. */
#ifndef PROGRAM_H
#define PROGRAM_H

typedef unsigned char byte;
typedef unsigned short half;
typedef unsigned int word;
typedef unsigned long long wide;

/* Puts bytes of output; a word goes out with its lowest byte first. */
void put(word value);
void put_word(word value);
void put_text(const char *text);
void put_number(word value);

/* Hands the output over; what is put later is lost. */
void flush(void);

/* The same numbers in every run. */
word next_random(void);

/* Each program is this function; it gives the exit code, below 64. */
word program(void);

#endif

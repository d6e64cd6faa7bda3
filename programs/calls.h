/* What the kernel and the import program agree on. */
#ifndef CALLS_H
#define CALLS_H

/* The program's four pages, one behind the other, and the frames they lie in. */
#define PROGRAM         0x80000000      /* code, read only */
#define DATA            0x80001000
#define STACK           0x80002000
#define JOB             0x80003000      /* the job, read only */
#define CODE_FRAME      0x20001000
#define DATA_FRAME      0x20002000
#define STACK_FRAME     0x20003000
#define JOB_FRAME       0x20004000

/* System calls: the number in $2, the byte to print in $4. */
#define PRINT           1
#define END             2

#endif

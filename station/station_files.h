/* station_files.h - keep the files of a station so that a crash or a power
 * cut leaves either the state before a save or the state after it, whole.
 *
 *   STATION/execution.rom ...   written once, by sf_create; their `sums` beside
 *   STATION/sums                them, in the format of cksum(1)
 *   STATION/current             one line: N, and the sum and length of N/sums
 *   STATION/N/image, ram, ...   the state, plain files; never written in place
 *   STATION/N/sums              what `cksum image ram ...` prints inside N
 *
 * Every function returns SF_OK, or SF_TROUBLE / SF_BUSY after printing exactly
 * one line on stderr (what is wrong, with which file, what to do about it).
 * The module allocates nothing and keeps no state of its own. */
#ifndef STATION_FILES_H
#define STATION_FILES_H

#include <stddef.h>
#include <stdint.h>

enum {
    SF_OK = 0,
    SF_TROUBLE = 3, /* the station, a file or the system is in the way */
    SF_BUSY = 4,    /* another program holds this station */

    SF_FILES_MAX = 16,  /* files in one set */
    SF_NAME_MAX = 31,   /* bytes of a file name: a-z 0-9 . -, first a letter */
    SF_PATH_MAX = 4096, /* bytes of the path of a station, with the final 0 */
    SF_SUMS_MAX = 2048  /* bytes of `sums`: more than SF_FILES_MAX lines */
};

/* One file and the caller's array for it. Its contents are not interpreted. */
typedef struct {
    const char *name;
    unsigned char *data; /* `limit` bytes */
    size_t length;       /* bytes in use: read by save, set by load */
    size_t limit;
    int late; /* 1: saves of earlier versions have no such file. One that `sums` does
                 not list is read as empty; an empty one is not written. Such files
                 stand behind all others of a set. */
} sf_file;

/* An open, locked station. Fields are private to the module, but that fd is -1
 * where no station is open. */
typedef struct {
    int fd;                   /* the folder; its flock is the lock */
    unsigned long generation; /* last one loaded or saved here; 0: none yet */
    unsigned long bad_gen;    /* the trouble met, until its line is printed */
    const char *bad_name, *bad_what;
    int bad_errno;
    char number[24]; /* scratch: the name of a generation's folder */
    char path[SF_PATH_MAX];
} sf_station;

/* Make a new station at `path`, which must not exist, open it and lock it. It
 * is built beside it, as `path`.new-PID, and renamed when it is whole and on
 * the disk. A killed sf_create can leave that folder behind; it may be
 * deleted. On trouble nothing is open, and a second try begins anew. */
int sf_create(sf_station *s, const char *path, const sf_file *roms, size_t rom_count, const sf_file *files,
              size_t count);

/* Open a station and lock it, without waiting. The lock lasts until sf_close
 * or the end of the process. On trouble there is nothing to close. */
int sf_open(sf_station *s, const char *path);
int sf_close(sf_station *s);

/* Read the ROMs and the present generation into the callers' arrays. Writes
 * nothing. On trouble every length is 0 and the arrays hold no state. */
int sf_load(sf_station *s, sf_file *roms, size_t rom_count, sf_file *files, size_t count);

/* Save the files as the next generation and make it the present one. On
 * SF_OK it is on the disk. On SF_TROUBLE the generation before is whole, and
 * the line says whether the new one may be in force; saving again is safe.
 * When only the removal of an old generation fails, the line says so and the
 * result is SF_OK. */
int sf_save(sf_station *s, const sf_file *files, size_t count);

/* Read the generation before the present one into the arrays. Writes nothing. On
 * trouble the arrays hold no state. */
int sf_load_before(sf_station *s, sf_file *files, size_t count);

/* Read the generation before the present one and save it as the next one. The
 * arrays then hold it, and on trouble no state. A second restore undoes the
 * first. */
int sf_restore(sf_station *s, sf_file *files, size_t count);

/* The CRC of POSIX cksum(1) over a whole buffer, its length included. */
uint32_t sf_cksum(const unsigned char *data, size_t length);

#endif

/* convert.c - see convert.h. */
#include "convert.h"

#include "lavushmir.h"
#include "output.h"
#include "say.h"
#include "station.h"

#include <string.h>

#define KEPT "nothing was written; where there is a save before it: " PROGRAM " --restore STATION"
#define IN_FORCE "the station is of this version now, without a step on hand; the old save stays\n"
#define CUT IN_FORCE "its journal has room for 32,768 steps now, which is the most\n"

enum {
    FIRST_IMAGE_BYTES = 501, /* of version 1, which the version before this one converts */
    MOST_SLOTS = LAVUSHMIR_MOST_JOURNAL_BYTES / LAVUSHMIR_RECORD_BYTES
};

static int is_first(const lent_set *set)
{
    return set->files[IMAGE].length == FIRST_IMAGE_BYTES;
}

int convert_is_old(const lent_set *set)
{
    return is_first(set) || set->files[IMAGE].length == LAVUSHMIR_OLD_IMAGE_BYTES;
}

static void say_first(const char *path)
{
    say(path, "was saved by the first version of this program, which this one can not convert", 0,
        "nothing was written; convert it by lavushmir 0.8 first, and then by this one");
}

int convert_is_due(const char *path, const lent_set *set)
{
    if (!convert_is_old(set))
        return 0;
    if (is_first(set))
        say_first(path);
    else
        say(path, "was saved by an earlier version of this program", 0,
            "to convert it: " PROGRAM " --convert STATION");
    return 1;
}

static int refused(const char *path, unsigned number)
{
    if (number == LAVUSHMIR_DONE)
        return SF_OK;
    say(path, number == LAVUSHMIR_BAD_IMAGE ? "its image keeps neither this version's rules nor those of the one before"
                                            : lavushmir_text(number), 0, KEPT);
    return SF_TROUBLE;
}

/* From the other set's image to this one's, judged with the old journal. */
static unsigned convert_image(void)
{
    sf_file *f = lent.files, *old = &lent_other.files[IMAGE];
    old->length = f[IMAGE].length;
    memcpy(old->data, f[IMAGE].data, old->length);
    f[IMAGE].length = STATION_IMAGE_BYTES;
    return lavushmir_number(lavushmir_convert(old->data, old->length, f[IMAGE].data, f[IMAGE].length, f[PAPER].data,
                                              f[PAPER].length, f[JOURNAL].data, f[JOURNAL].length));
}

static void clear(sf_file *f, size_t length)
{
    f->length = length;
    memset(f->data, 0, length);
}

/* No step is on hand: the records are of this version's length, as many as there
 * were where the journal has room for them, and the index is the one of no step.
 * Gives whether there were more. */
static int clear_steps(void)
{
    sf_file *f = lent.files;
    size_t slots = f[JOURNAL].length / LAVUSHMIR_OLD_RECORD_BYTES;
    clear(&f[JOURNAL], (slots < MOST_SLOTS ? slots : MOST_SLOTS) * LAVUSHMIR_RECORD_BYTES);
    clear(&f[INDEX], f[RAM].length / LAVUSHMIR_FRAME_BYTES * LAVUSHMIR_INDEX_ENTRY_BYTES);
    return slots > MOST_SLOTS;
}

/* The call is lent no RAM, and the index has an entry for each of its frames. */
static unsigned judge_ram(void)
{
    size_t length = lent.files[RAM].length;
    return length > 0 && length % LAVUSHMIR_FRAME_BYTES == 0 ? LAVUSHMIR_DONE : LAVUSHMIR_BAD_RAM;
}

static int convert(sf_station *s, const char *path)
{
    int r, cut = 0;
    if (is_first(&lent)) {
        say_first(path);
        return SF_TROUBLE;
    }
    r = refused(path, judge_ram());
    if (r == SF_OK)
        r = refused(path, convert_image());
    if (r == SF_OK) {
        cut = clear_steps();
        r = sf_save(s, lent.files, FILES);
    }
    return r == SF_OK ? output_show(cut ? CUT : IN_FORCE) : r;
}

int convert_station(const char *path)
{
    static sf_station s;
    int r = sf_open(&s, path);
    if (r == SF_OK)
        r = sf_load(&s, lent.roms, ROMS, lent.files, FILES);
    if (r != SF_OK)
        return r;
    if (lent.files[IMAGE].length == STATION_IMAGE_BYTES)
        return output_show("the station is of this version already; nothing was written\n");
    return convert(&s, path);
}

/* wants.c - see wants.h. */
#include "wants.h"

#include "convert.h"
#include "lent.h"
#include "named.h"
#include "say.h"
#include "station.h"

#include <string.h>
#include <sys/stat.h>

uint64_t wants_save(station *s)
{
    int r = s->files.fd >= 0 ? sf_save(&s->files, lent.files, FILES)
                             : sf_create(&s->files, s->path, lent.roms, ROMS, lent.files, FILES);
    return r == SF_OK ? STATION_EVENT_SAVED : STATION_EVENT_NOT_SAVED;
}

/* By way of the other set: where it fails, the state at hand stays. A save of an
 * earlier version can not be lent to this session. */
uint64_t wants_restore(station *s)
{
    if (s->files.fd < 0) {
        say(s->path, "has no save yet", 0, "save it first");
        return STATION_EVENT_NOT_RESTORED;
    }
    if (sf_load_before(&s->files, lent_other.files, FILES) != SF_OK)
        return STATION_EVENT_NOT_RESTORED;
    if (convert_is_old(&lent_other)) {
        say(s->path, "the save before the present one is of an earlier version", 0,
            "to have it, leave and type: " PROGRAM " --restore STATION, then --convert STATION");
        return STATION_EVENT_NOT_RESTORED;
    }
    if (sf_save(&s->files, lent_other.files, FILES) != SF_OK)
        return STATION_EVENT_NOT_RESTORED;
    lent_take_other();
    return STATION_EVENT_RESTORED;
}

static int lend(sf_file *f, uint64_t length)
{
    if (length > f->limit)
        return -1;
    f->length = (size_t)length;
    memset(f->data, 0, f->length);
    return 0;
}

uint64_t wants_make(const uint64_t *session)
{
    sf_file *rom = lent.roms;
    if (named_read(session[STATION_WORD_NAME_FROM], session[STATION_WORD_NAME_TO], rom[EXECUTION].data, ROM_BYTES,
                   &rom[EXECUTION].length) != 0 ||
        named_read(session[STATION_WORD_SECOND_FROM], session[STATION_WORD_SECOND_TO], rom[BOOTSTRAP].data, ROM_BYTES,
                   &rom[BOOTSTRAP].length) != 0)
        return STATION_EVENT_FILE_MISSING;
    if (lend(&lent.files[IMAGE], STATION_IMAGE_BYTES) == 0 &&
        lend(&lent.files[RAM], session[STATION_WORD_RAM_BYTES]) == 0 &&
        lend(&lent.files[PAPER], session[STATION_WORD_PAPER_BYTES]) == 0 &&
        lend(&lent.files[JOURNAL], session[STATION_WORD_JOURNAL_BYTES]) == 0 &&
        lend(&lent.files[INDEX], session[STATION_WORD_INDEX_BYTES]) == 0)
        return STATION_EVENT_MADE;
    say("the machine", "is larger than this program has room for", 0, "ask for less");
    return STATION_EVENT_FILE_MISSING;
}

uint64_t wants_file(const uint64_t *session, size_t *length)
{
    return named_read(session[STATION_WORD_NAME_FROM], session[STATION_WORD_NAME_TO], lent_file, FILE_BYTES,
                      length) == 0 ? STATION_EVENT_FILE_READ : STATION_EVENT_FILE_MISSING;
}

/* Opened twice, a station would be held by this program itself. */
static int is_own(const station *s, const char *name)
{
    struct stat own, named;
    return s->files.fd >= 0 && fstat(s->files.fd, &own) == 0 && stat(name, &named) == 0 &&
           own.st_dev == named.st_dev && own.st_ino == named.st_ino;
}

int wants_other(const station *s, const uint64_t *session)
{
    static sf_station other;
    char name[NAMED_MAX];
    int r;
    if (named_string(name, session[STATION_WORD_NAME_FROM], session[STATION_WORD_NAME_TO]) != 0)
        return -1;
    if (is_own(s, name)) {
        say(name, "is this station itself", 0, "name another");
        return -1;
    }
    if (sf_open(&other, name) != SF_OK)
        return -1;
    r = sf_load(&other, lent_other.roms, ROMS, lent_other.files, FILES);
    (void)sf_close(&other); /* only read from */
    return r == SF_OK && !convert_is_due(name, &lent_other) ? 0 : -1;
}

/* drive.c - a small program over station/station_files.h, for the tests.
 *   drive create DIR SEED        drive restore DIR
 *   drive load DIR               drive hold DIR     (until stdin ends)
 *   drive save DIR SEED [HOW]    drive state SEED   (what a load must print)
 *   drive check DIR SEED         (load, save SEED, load; prints both states)
 *   drive before DIR             (the save before the present one, without ROMs)
 *   drive sum FILE ...           (what cksum FILE ... prints)
 *   drive wrong DIR              (saves that must be refused)
 * HOW: n = save without a load, 2 = when the save fails, save again in the
 * same session.
 * A state is made from its seed; DRIVE_BIG=1 gives the largest buffers. */
#include "station_files.h"

#include <stdio.h>
#include <stdlib.h>
#include <string.h>
#include <unistd.h>

enum { IMAGE, RAM, PAPER, JOURNAL, INDEX, FILES };
#define MIB ((size_t)1 << 20)

static unsigned char rom[2][4096], image[741], ram[16u << 20], paper[65536], journal[16u << 20], index_[65536];
static sf_file roms[2] = {{"execution.rom", rom[0], 0, 4096, 0}, {"bootstrap.rom", rom[1], 0, 4096, 0}};
static sf_file files[FILES] = {{"image", image, 0, sizeof image, 0},
                               {"ram", ram, 0, sizeof ram, 0},
                               {"paper", paper, 0, sizeof paper, 0},
                               {"journal", journal, 0, sizeof journal, 0},
                               {"index", index_, 0, sizeof index_, 1}};

static void fill(sf_file *f, unsigned long seed, size_t length)
{
    uint32_t x = (uint32_t)(seed * 2654435761u + 12345u);
    for (size_t i = 0; i < length; i++) {
        x = x * 1664525u + 1013904223u;
        f->data[i] = (unsigned char)(x >> 24);
    }
    f->length = length;
}

static void make_state(unsigned long seed)
{
    int big = getenv("DRIVE_BIG") != NULL;
    fill(&roms[0], 1001, 4096);
    fill(&roms[1], 1002, 1024);
    fill(&files[IMAGE], seed, sizeof image);
    fill(&files[RAM], seed + 1, big ? 16 * MIB : 4096);
    fill(&files[PAPER], seed + 2, big ? 65536 : seed % 3 * 50); /* also empty */
    fill(&files[JOURNAL], seed + 3, big ? 16 * MIB : seed % 5 * 300);
    fill(&files[INDEX], seed + 4, big ? 65536 : (seed + 1) % 3 * 16); /* also not there */
}

static void show(const sf_file *f, size_t count)
{
    for (size_t i = 0; i < count; i++)
        printf("%s %zu %lu\n", f[i].name, f[i].length, (unsigned long)sf_cksum(f[i].data, f[i].length));
}

static int load(sf_station *s)
{
    int r = sf_load(s, roms, 2, files, FILES);
    show(roms, r == SF_OK ? 2 : 0);
    show(files, r == SF_OK ? FILES : 0);
    return r;
}

static int run_save(sf_station *s, const char *how, unsigned long seed)
{
    int r = strchr(how, 'n') ? SF_OK : sf_load(s, roms, 2, files, FILES);
    if (r != SF_OK)
        return r;
    make_state(seed);
    r = sf_save(s, files, FILES);
    return r != SF_OK && strchr(how, '2') ? sf_save(s, files, FILES) : r;
}

static int run_wrong(sf_station *s)
{
    static const char *const names[] = {"", "sums", "a/b", "..", "7", "Ram", "current", "current.new", ".x", "a b",
                                        "abcdefghijklmnopqrstuvwxyz-12345"};
    static sf_file many[SF_FILES_MAX + 1];
    sf_file f = {"ram", ram, 5, 4, 0};
    int good = sf_save(s, &f, 1) == SF_TROUBLE; /* longer than its array */
    f.length = 4;
    for (size_t i = 0; i < sizeof names / sizeof *names; i++) {
        f.name = names[i];
        good += sf_save(s, &f, 1) == SF_TROUBLE;
    }
    f.name = "ram";
    for (size_t i = 0; i < SF_FILES_MAX + 1; i++)
        many[i] = f;
    good += sf_save(s, many, SF_FILES_MAX + 1) == SF_TROUBLE;
    good += sf_save(s, many, 2) == SF_TROUBLE; /* the same name twice */
    return good == 14 ? SF_OK : SF_TROUBLE;
}

int main(int argc, char **argv)
{
    const char *what = argc > 2 ? argv[1] : "";
    unsigned long seed = argc > 3 ? strtoul(argv[3], NULL, 10) : 0;
    sf_station s;
    int r, r2;
    if (strcmp(what, "state") == 0) {
        make_state(strtoul(argv[2], NULL, 10));
        show(roms, 2);
        show(files, FILES);
        return 0;
    }
    if (strcmp(what, "sum") == 0) {
        for (int i = 2; i < argc; i++) {
            FILE *f = fopen(argv[i], "rb");
            size_t n = f != NULL ? fread(ram, 1, sizeof ram, f) : 0;
            printf("%lu %zu %s\n", (unsigned long)sf_cksum(ram, n), n, argv[i]);
            if (f == NULL || fclose(f) != 0)
                return 2;
        }
        return 0;
    }
    if (*what == '\0')
        return 2;
    make_state(seed);
    r = strcmp(what, "create") == 0 ? sf_create(&s, argv[2], roms, 2, files, FILES) : sf_open(&s, argv[2]);
    if (r != SF_OK)
        return r;
    if (strcmp(what, "load") == 0) {
        r = load(&s);
    } else if (strcmp(what, "check") == 0) {
        r = load(&s);
        r = r != SF_OK ? r : run_save(&s, "", seed);
        printf("then\n");
        r = r != SF_OK ? r : load(&s);
    } else if (strcmp(what, "save") == 0) {
        r = run_save(&s, argc > 4 ? argv[4] : "", seed);
    } else if (strcmp(what, "restore") == 0) {
        r = sf_restore(&s, files, FILES);
    } else if (strcmp(what, "before") == 0) {
        r = sf_load_before(&s, files, FILES);
        show(files, r == SF_OK ? FILES : 0);
    } else if (strcmp(what, "wrong") == 0) {
        r = run_wrong(&s);
    } else if (strcmp(what, "hold") == 0) {
        printf("held\n");
        fflush(stdout);
        while (getchar() != EOF)
            continue;
    }
    r2 = sf_close(&s);
    return r != SF_OK ? r : r2;
}

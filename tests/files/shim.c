/* shim.c - LD_PRELOAD: count system calls; make one fail, kill the program at
 * one, make transfers short, drop one fsync, or record the order of calls.
 * SHIM_MODE: EIO ENOSPC EINTR (the n-th call fails), sticky (it and all after
 * it but close fail: ENOSPC), lie (done, but EIO is reported), before, after (_exit at
 * it), short (every transfer short, every third call EINTR), log, drop (log,
 * and the n-th fsync is silently left out). SHIM_N: n. SHIM_LOG: a file. */
#define _GNU_SOURCE
#include <dlfcn.h>
#include <errno.h>
#include <fcntl.h>
#include <stdarg.h>
#include <stdio.h>
#include <stdlib.h>
#include <string.h>
#include <sys/syscall.h>
#include <unistd.h>

static char mode[16] = "-";
static long target, calls, syncs;
static int log_fd = -1;

static void start(void)
{
    const char *m = getenv("SHIM_MODE"), *n = getenv("SHIM_N"), *l = getenv("SHIM_LOG");
    if (mode[0] != '-')
        return;
    snprintf(mode, sizeof mode, "%s", m ? m : "");
    target = n ? atol(n) : 0;
    if (l)
        log_fd = (int)syscall(SYS_openat, AT_FDCWD, l, O_WRONLY | O_CREAT | O_APPEND | O_CLOEXEC, 0600);
}

static void emit(const char *text)
{
    if (log_fd >= 0 && syscall(SYS_write, log_fd, text, strlen(text)) < 0)
        _exit(99);
}

static int is(const char *m) { return strcmp(mode, m) == 0; }

/* 1: this call must fail with errno set. */
static int stop(int may_eintr)
{
    start();
    calls++;
    if (is("short") && may_eintr && calls % 3 == 0) { errno = EINTR; return 1; }
    if (is("sticky") && calls >= target) { errno = ENOSPC; return 1; }
    if (calls != target) return 0;
    if (is("before")) { emit("killed\n"); _exit(77); }
    if (is("EIO")) { errno = EIO; return 1; }
    if (is("ENOSPC")) { errno = ENOSPC; return 1; }
    if (is("EINTR") && may_eintr) { errno = EINTR; return 1; }
    return 0;
}

static long done(long r)
{
    if (calls == target && is("after")) _exit(77);
    if (calls == target && is("lie")) { errno = EIO; return -1; }
    return r;
}

static void path_of(char out[4096], int dir, const char *name)
{
    char link[64];
    ssize_t n = 0;
    snprintf(link, sizeof link, "/proc/self/fd/%d", dir);
    if (dir == AT_FDCWD)
        strcpy(link, "/proc/self/cwd");
    if (!name || name[0] != '/')
        n = readlink(link, out, 2048);
    if (n < 0) n = 0;
    out[n] = 0;
    if (name)
        snprintf(out + n, 2048, "%s%s", n ? "/" : "", name);
}

static void record(const char *call, int dir, const char *a, int dir2, const char *b, long extra)
{
    static char p[4096], q[4096], line[9000];
    if (log_fd < 0) return;
    path_of(p, dir, a);
    q[0] = 0;
    if (b) path_of(q, dir2, b);
    snprintf(line, sizeof line, "%s\t%s\t%s\t%ld\n", call, p, q, extra);
    emit(line);
}

int openat(int dir, const char *name, int flags, ...)
{
    va_list v;
    va_start(v, flags);
    int m = flags & O_CREAT ? va_arg(v, int) : 0;
    va_end(v);
    if (stop(1)) return -1;
    long r = syscall(SYS_openat, dir, name, flags, m);
    if (r >= 0) record("open", dir, name, 0, NULL, flags);
    return (int)done(r);
}
int open(const char *name, int flags, ...)
{
    va_list v;
    va_start(v, flags);
    int m = flags & O_CREAT ? va_arg(v, int) : 0;
    va_end(v);
    return openat(AT_FDCWD, name, flags, m);
}
ssize_t read(int fd, void *p, size_t n)
{
    if (fd <= 2) return syscall(SYS_read, fd, p, n);
    if (stop(1)) return -1;
    if (is("short") && n > 97) n = 97;
    return done(syscall(SYS_read, fd, p, n));
}
ssize_t write(int fd, const void *p, size_t n)
{
    if (fd <= 2) return syscall(SYS_write, fd, p, n);
    if (stop(1)) return -1;
    if (is("short") && n > 89) n = 89;
    long r = syscall(SYS_write, fd, p, n);
    if (r > 0 && log_fd >= 0) {
        record("write", fd, NULL, 0, NULL, r);
        for (long i = 0; i < r; i++) {
            char h[4];
            snprintf(h, sizeof h, "%02x", ((const unsigned char *)p)[i]);
            emit(h);
        }
        emit("\n");
    }
    return done(r);
}
ssize_t pwrite(int fd, const void *p, size_t n, off_t o)
{
    return stop(1) ? -1 : done(syscall(SYS_pwrite64, fd, p, n, o));
}
int fsync(int fd)
{
    if (stop(1)) return -1;
    if (is("drop") && ++syncs == target) return 0;
    long r = fcntl(fd, F_GETFD) < 0 ? -1 : 0; /* a kill loses nothing the kernel has; saves a minute */
    record("fsync", fd, NULL, 0, NULL, r);
    return (int)done(r);
}
int close(int fd)
{
    if (fd <= 2) return (int)syscall(SYS_close, fd);
    if (stop(1) && !is("sticky")) { /* the descriptor is gone, as on Linux */
        int e = errno;
        syscall(SYS_close, fd);
        errno = e;
        return -1;
    }
    return (int)done(syscall(SYS_close, fd));
}
int renameat(int d, const char *a, int e, const char *b)
{
    if (stop(0)) return -1;
    if (log_fd >= 0) record("rename", d, a, e, b, 0);
    return (int)done(syscall(SYS_renameat2, d, a, e, b, 0));
}
int rename(const char *a, const char *b) { return renameat(AT_FDCWD, a, AT_FDCWD, b); }
int mkdirat(int d, const char *a, mode_t m)
{
    if (stop(0)) return -1;
    long r = syscall(SYS_mkdirat, d, a, m);
    if (r == 0) record("mkdir", d, a, 0, NULL, 0);
    return (int)done(r);
}
int mkdir(const char *a, mode_t m) { return mkdirat(AT_FDCWD, a, m); }
int unlinkat(int d, const char *a, int f)
{
    if (stop(0)) return -1;
    long r = syscall(SYS_unlinkat, d, a, f);
    if (r == 0) record("unlink", d, a, 0, NULL, f);
    return (int)done(r);
}
int unlink(const char *a) { return unlinkat(AT_FDCWD, a, 0); }

/* The number of calls, for the tests: how far n has to go. */
__attribute__((destructor)) static void report(void)
{
    char text[64];
    start();
    snprintf(text, sizeof text, "calls\t%ld\t\t%ld\n", calls, syncs);
    if (is("log") || is("count")) emit(text);
}

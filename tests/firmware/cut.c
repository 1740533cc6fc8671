/* cut.c: a library to be loaded before the C library (LD_PRELOAD). It counts the calls by which a program changes files or tells something, writes them down,
 * and ends the program at one of them, as a power cut does: by SIGKILL, with nothing said.
 *
 *     CUT_TRACE=FILE   appends a line for each counted call that was done: `truncate FD PATH`, `append FD PATH` or `open FD PATH`, `write FD HEX`, `sync FD`,
 *                      `cut FD LENGTH`, `rename OLD NEW`; and `look FD PATH` for a file opened to be read, which is not counted
 *     CUT_AT=K         SIGKILL right before the K-th counted call
 *     CUT_HALF=K       the same, but if that call is a write half of its bytes are written first
 *     CUT_FAIL=K       the K-th counted call fails with EIO, and nothing of it is done
 *     CUT_PIECES=1     every write, sync and cut is interrupted once (EINTR) before it is done, and a read or write moves at most 100 bytes
 *     CUT_SLOW=MS      every sync takes so many milliseconds
 *
 * A sync gets no further than here: what a process leaves when it is killed is the same without it, and the test reads from the trace what would be on the
 * disk. */
#define _GNU_SOURCE
#include <dlfcn.h>
#include <errno.h>
#include <fcntl.h>
#include <signal.h>
#include <stdarg.h>
#include <stdio.h>
#include <stdlib.h>
#include <string.h>
#include <time.h>
#include <unistd.h>

static long counted, interrupted;

static long setting(const char *name)
{
    const char *value = getenv(name);
    return value == NULL ? 0 : atol(value);
}

static void *real(const char *name)
{
    void *function = dlsym(RTLD_NEXT, name);
    if (function == NULL)
        abort();
    return function;
}

static ssize_t real_write(int file, const void *bytes, size_t length)
{
    ssize_t (*function)(int, const void *, size_t);
    *(void **)&function = real("write");
    return function(file, bytes, length);
}

static void die_now(void)
{
    kill(getpid(), SIGKILL);
    for (;;)
        pause();
}

static void trace(const char *format, ...)
{
    char line[10000];
    const char *name = getenv("CUT_TRACE");
    if (name == NULL)
        return;
    int (*function)(const char *, int, ...);
    *(void **)&function = real("open");
    int file = function(name, O_WRONLY | O_CREAT | O_APPEND | O_CLOEXEC, 0644);
    va_list values;
    va_start(values, format);
    int length = vsnprintf(line, sizeof line, format, values);
    va_end(values);
    if (file < 0 || length < 0 || (size_t)length >= sizeof line || real_write(file, line, (size_t)length) != length || close(file) != 0)
        abort();
}

/* Counts a call, and ends the program if it is the one. Whether it is to fail. */
static int fails(void)
{
    counted++;
    if (counted == setting("CUT_AT") || counted == setting("CUT_HALF"))
        die_now();
    errno = EIO;
    return counted == setting("CUT_FAIL");
}

static int interrupts(void)
{
    errno = EINTR;
    return setting("CUT_PIECES") && interrupted++ % 2 == 0;
}

static void trace_write(int file, const unsigned char *bytes, size_t length)
{
    char hex[2 * 4096 + 1] = "";
    if (length > 4096)
        abort();
    for (size_t k = 0; k < length; k++)
        snprintf(hex + 2 * k, 3, "%02x", bytes[k]);
    trace("write %d %s\n", file, length == 0 ? "-" : hex);
}

ssize_t write(int file, const void *bytes, size_t length)
{
    if (file == STDERR_FILENO)
        return real_write(file, bytes, length);
    if (interrupts())
        return -1;
    if (counted + 1 == setting("CUT_HALF")) {
        trace_write(file, bytes, length / 2);
        if (real_write(file, bytes, length / 2) != (ssize_t)(length / 2))
            abort();
    }
    if (fails())
        return -1;
    if (setting("CUT_PIECES") && length > 100)
        length = 100;
    ssize_t done = real_write(file, bytes, length);
    if (done < 0)
        return -1;
    trace_write(file, bytes, (size_t)done);
    return done;
}

ssize_t read(int file, void *bytes, size_t length)
{
    ssize_t (*function)(int, void *, size_t);
    *(void **)&function = real("read");
    if (interrupts())
        return -1;
    return function(file, bytes, setting("CUT_PIECES") && length > 100 ? 100 : length);
}

static int synced(int file)
{
    if (interrupts())
        return -1;
    if (fails())
        return -1;
    struct timespec time = {.tv_sec = setting("CUT_SLOW") / 1000, .tv_nsec = setting("CUT_SLOW") % 1000 * 1000000};
    nanosleep(&time, NULL);
    trace("sync %d\n", file);
    return 0;
}

int fsync(int file)
{
    return synced(file);
}

int fdatasync(int file)
{
    return synced(file);
}

int ftruncate(int file, off_t length)
{
    int (*function)(int, off_t);
    *(void **)&function = real("ftruncate");
    if (interrupts())
        return -1;
    if (fails())
        return -1;
    if (function(file, length) != 0)
        return -1;
    trace("cut %d %ld\n", file, (long)length);
    return 0;
}

/* A file that is opened to be read is not counted: nothing changes. A directory can only be opened so. */
static int opened(int directory, const char *path, int flags, mode_t mode)
{
    int (*function)(int, const char *, int, ...);
    *(void **)&function = real("openat");
    int writes = (flags & O_ACCMODE) != O_RDONLY;
    if (writes && fails())
        return -1;
    int file = function(directory, path, flags, mode);
    if (file >= 0)
        trace("%s %d %s\n", !writes ? "look" : flags & O_TRUNC ? "truncate" : flags & O_APPEND ? "append" : "open", file, path);
    return file;
}

static mode_t mode_of(int flags, va_list values)
{
    return flags & O_CREAT ? va_arg(values, mode_t) : 0;
}

int open(const char *path, int flags, ...)
{
    va_list values;
    va_start(values, flags);
    mode_t mode = mode_of(flags, values);
    va_end(values);
    return opened(AT_FDCWD, path, flags, mode);
}

int openat(int directory, const char *path, int flags, ...)
{
    va_list values;
    va_start(values, flags);
    mode_t mode = mode_of(flags, values);
    va_end(values);
    return opened(directory, path, flags, mode);
}

static int renamed(int from, const char *old, int to, const char *new)
{
    int (*function)(int, const char *, int, const char *);
    *(void **)&function = real("renameat");
    if (fails())
        return -1;
    if (function(from, old, to, new) != 0)
        return -1;
    trace("rename %s %s\n", old, new);
    return 0;
}

int rename(const char *old, const char *new)
{
    return renamed(AT_FDCWD, old, AT_FDCWD, new);
}

int renameat(int from, const char *old, int to, const char *new)
{
    return renamed(from, old, to, new);
}

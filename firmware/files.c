/* files.c: see files.h. */
#define _POSIX_C_SOURCE 200809L
#include "files.h"

#include <errno.h>
#include <fcntl.h>
#include <stdio.h>
#include <string.h>
#include <unistd.h>

int open_folder(const char *path, const char **name)
{
    char folder[4096];
    const char *slash = strrchr(path, '/');
    *name = slash ? slash + 1 : path;
    if ((*name)[0] == '\0') {
        errno = EISDIR;
        return -1;
    }
    /* "cabinet.image" stands in ".", and "/cabinet.image" in "/". */
    int length = slash ? snprintf(folder, sizeof folder, "%.*s", slash == path ? 1 : (int)(slash - path), path) : snprintf(folder, sizeof folder, ".");
    if (length < 0 || (size_t)length >= sizeof folder) {
        errno = ENAMETOOLONG;
        return -1;
    }
    return open(folder, O_RDONLY | O_DIRECTORY | O_CLOEXEC);
}

int read_bytes(int file, uint8_t *bytes, size_t room, size_t *length)
{
    *length = 0;
    while (*length < room) {
        ssize_t got = read(file, bytes + *length, room - *length);
        if (got == 0)
            break;
        if (got < 0 && errno != EINTR)
            return -1;
        *length += got > 0 ? (size_t)got : 0;
    }
    return 0;
}

int read_file(int directory, const char *path, uint8_t *bytes, size_t room, size_t *length)
{
    int file = openat(directory, path, O_RDONLY | O_CLOEXEC);
    if (file < 0)
        return -1;
    if (read_bytes(file, bytes, room, length) < 0) {
        int why = errno;
        close(file);
        errno = why;
        return -1;
    }
    return close(file);
}

int write_bytes(int file, const uint8_t *bytes, size_t length)
{
    while (length > 0) {
        ssize_t put = write(file, bytes, length);
        if (put < 0 && errno != EINTR)
            return -1;
        if (put > 0) {
            bytes += put;
            length -= (size_t)put;
        }
    }
    return 0;
}

int flush(int file)
{
    int result;
    do
        result = fsync(file);
    while (result < 0 && errno == EINTR);
    return result;
}

int cut_off(int file, uint64_t length)
{
    int result;
    do
        result = ftruncate(file, (off_t)length);
    while (result < 0 && errno == EINTR);
    return result;
}

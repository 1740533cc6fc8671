/* image_store.c: see image_store.h. */
#define _POSIX_C_SOURCE 200809L
#include "image_store.h"
#include "files.h"

#include <errno.h>
#include <fcntl.h>
#include <stdio.h>
#include <unistd.h>

int image_store_open(struct image_store *store, const char *path)
{
    store->directory = open_folder(path, &store->name);
    if (store->directory < 0)
        return -1;
    int named = snprintf(store->next, sizeof store->next, "%s.next", store->name);
    if (named < 0 || (size_t)named >= sizeof store->next) {
        errno = ENAMETOOLONG;
        return -1;
    }
    return 0;
}

/* Closes the file of a failed call and keeps that call's errno. */
static int failed(int file)
{
    int why = errno;
    close(file);
    errno = why;
    return -1;
}

int image_store_load(const struct image_store *store, uint8_t *bytes, size_t room, size_t *length)
{
    return read_file(store->directory, store->name, bytes, room, length);
}

int image_store_save(const struct image_store *store, const uint8_t *image, size_t length)
{
    int file = openat(store->directory, store->next, O_WRONLY | O_CREAT | O_TRUNC | O_CLOEXEC, 0644);
    if (file < 0)
        return -1;
    /* On the disk before it gets the name: otherwise a cut could leave the name with an empty file. */
    if (write_bytes(file, image, length) < 0 || flush(file) < 0)
        return failed(file);
    if (close(file) < 0)
        return -1;
    if (renameat(store->directory, store->next, store->directory, store->name) < 0)
        return -1;
    /* And the name, too: otherwise a cut could bring back the image stored before. */
    return flush(store->directory);
}

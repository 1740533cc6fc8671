/* image_store.h: a cabinet's image in a file, so that a power cut at any moment leaves a whole image there: the one stored last, or the one that was being
 * stored. Once image_store_save has returned 0 it is the latter.
 *
 * FILE.next is written beside FILE and takes its place only when it is whole and on the disk. What a cut leaves of FILE.next is never read, and the next save
 * overwrites it. One program at a time uses a store. */
#ifndef IMAGE_STORE_H
#define IMAGE_STORE_H

#include <stddef.h>
#include <stdint.h>

struct image_store {
    int directory;    /* open for as long as the store is used */
    const char *name; /* of the file in it */
    char next[256];   /* name of the file that is to take its place */
};

/* Each returns 0, or -1 with errno as the failed call of the system set it. */

/* `path` is kept and is not to change. The file need not exist, the directory must. */
int image_store_open(struct image_store *store, const char *path);

/* Reads at most `room` bytes of the file and says how many. ENOENT: there is no file. */
int image_store_load(const struct image_store *store, uint8_t *bytes, size_t room, size_t *length);

/* Stores the image. After -1 the file has the image stored before or this one, whole in either case; which of them is known only when it is read again. */
int image_store_save(const struct image_store *store, const uint8_t *image, size_t length);

#endif

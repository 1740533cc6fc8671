/* files.h: the bytes of a file, read, written whole and put on the disk. Each returns 0, or -1 with errno as the failed call of the system set it; none fails
 * because a signal came. */
#ifndef FILES_H
#define FILES_H

#include <stddef.h>
#include <stdint.h>

/* Opens the directory that a file stands in, and gives the file's name there, a part of `path`. The file need not exist. The descriptor, or -1. */
int open_folder(const char *path, const char **name);

/* Reads at most `room` bytes of a file and says how many. A path begins at the open directory, with AT_FDCWD at that of the program. ENOENT: there is no
 * file. */
int read_file(int directory, const char *path, uint8_t *bytes, size_t room, size_t *length);

/* The same of an open file, from where it was read last. */
int read_bytes(int file, uint8_t *bytes, size_t room, size_t *length);

int write_bytes(int file, const uint8_t *bytes, size_t length);

/* Puts on the disk what an open file has, or the names in an open directory. After any error but a signal the bytes may be lost although a second try would
 * say 0, so there is no second one. */
int flush(int file);

/* Cuts an open file off after so many bytes. */
int cut_off(int file, uint64_t length);

#endif

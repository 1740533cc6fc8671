/* call_log.h: the log of a cabinet as document 02, (iv), has it, which the program rerun reads: `N` and the station count when the cabinet is opened, then a
 * line `O` for each offer, done or declined, and a line `T` for each advance that was done.
 *
 * A line is on the disk before the image is stored that its call led to, and before anybody is told. So after a cut at any moment the log has the line of
 * every call that the image knows, and of every order that was told as declined; after these, at most, the line of one call whose image was not stored, or a
 * part of it. call_log_resume takes that away. It never takes away more: a log that does not fit the image then is left as it is. One program at a time uses a
 * log. */
#ifndef CALL_LOG_H
#define CALL_LOG_H

#include "image_view.h"

struct call_log {
    int file; /* open to be read, and to be appended to */
    unsigned stations;
};

/* Begins the log of a cabinet that is to be opened: its first line is on the disk, and so is its name. 1; 0 if the file has lines already, more than an opening
 * that was cut off leaves there; -1 with errno. */
int call_log_begin(struct call_log *log, const char *path, unsigned stations);

/* Goes on with the log of a cabinet whose image is `view`. It is read from its beginning to its end. 1; 0 if it is not the log of this image; -1 with errno. */
int call_log_resume(struct call_log *log, const char *path, struct image_view view);

/* Appends the line of an offer, or of a done advance, with what the reply says of it: it is on the disk when 0 is returned. -1 with errno: the line, or a part
 * of it, may be there or not. An order that no line can hold, since it has a rank or a cost beyond the last station, has none. */
int call_log_offer(const struct call_log *log, const uint8_t *order, const uint8_t *reply);
int call_log_advance(const struct call_log *log, const uint8_t *reply);

#endif

/* Tables of a run, in Markdown: to standard output, and at the end of a file from which docs/SPEED.md has them. */
#ifndef TABLES_H
#define TABLES_H

#include "timing.h"

/* The file, which may be there already. */
void write_tables_to(const char *name);

/* A line of text, to both. */
void say(const char *format, ...) __attribute__((format(printf, 1, 2)));

/* A table under its title, with a row for each subject, by its label. Gives the worst ratio, library by the faster C. */
double print_times(const char *title, const char *labels, char label[][64], double mean[][RUNNERS], int subjects);

#endif

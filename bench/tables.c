#include "tables.h"

#include <stdarg.h>
#include <stdio.h>
#include <stdlib.h>

static FILE *file;

void write_tables_to(const char *name)
{
    file = fopen(name, "a");
    if (file == NULL) {
        printf("%s cannot be written\n", name);
        exit(1);
    }
}

void say(const char *format, ...)
{
    va_list arguments;
    va_start(arguments, format);
    vprintf(format, arguments);
    va_end(arguments);
    va_start(arguments, format);
    vfprintf(file, format, arguments);
    va_end(arguments);
    fflush(stdout);
    fflush(file);
}

double print_times(const char *title, const char *labels, char label[][64], double mean[][RUNNERS], int subjects)
{
    double worst = 0;
    say("\n### %s\n\n", title);
    say("| %-30s | library ns | gcc ns  | clang ns | memcpy ns | library / gcc | library / clang | library / memcpy |\n", labels);
    say("|--------------------------------|-----------:|--------:|---------:|----------:|--------------:|----------------:|-----------------:|\n");
    for (int k = 0; k < subjects; k++) {
        double library = mean[k][LIBRARY], gcc = mean[k][GCC], clang = mean[k][CLANG], floor = mean[k][MEMCPY], faster = gcc < clang ? gcc : clang;
        say("| %-30s | %10.1f | %7.1f | %8.1f | %9.1f | %13.2f | %15.2f | %16.1f |\n", label[k], library, gcc, clang, floor, library / gcc, library / clang,
            library / floor);
        worst = library / faster > worst ? library / faster : worst;
    }
    return worst;
}

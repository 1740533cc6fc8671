/* stop.c: see stop.h. */
#include "stop.h"

#include <stdarg.h>
#include <stdio.h>
#include <stdlib.h>

_Noreturn void stop(enum ending ending, const char *format, ...)
{
    va_list values;
    va_start(values, format);
    fputs("cabinet: ", stderr);
    vfprintf(stderr, format, values);
    fputc('\n', stderr);
    va_end(values);
    exit(ending);
}

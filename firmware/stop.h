/* stop.h: how the program ends. In every case the image's file has a whole image, or is as it was found. */
#ifndef STOP_H
#define STOP_H

enum ending {
    ENDED = 0,         /* the input has ended */
    BAD_USAGE = 1,     /* the command line */
    IMAGE_REFUSED = 2, /* there is no image, or questions 2 to 4 of document 01 refuse it */
    STORE_FAILED = 3,  /* the image or the log cannot be read or stored */
    LINES_FAILED = 4,  /* standard input or output */
    CLOCK_ENDED = 5,   /* number 13: the clock stands at its last tick */
    SHEET_REFUSED = 6, /* the station sheet cannot be read, or is of another length */
    LOG_REFUSED = 7    /* the log is not that of the image */
};

/* Says why on standard error, in one line, and ends the program. */
_Noreturn void stop(enum ending ending, const char *format, ...);

#endif

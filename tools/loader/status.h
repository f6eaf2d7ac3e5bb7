/* The exit statuses of the loading tool. */
#ifndef STATUS_H
#define STATUS_H

enum {
    LOAD = 0,        /* Compatible, and nothing else of two images; or an image was listed */
    DO_NOT_LOAD = 1, /* Breaking */
    FAILED = 2,      /* bad usage, or an answer that could not be made or printed */
    REFUSED = 3
};

/* The status, if what was printed has got where it goes: an answer that nobody gets is none. */
int printed(int status);

#endif

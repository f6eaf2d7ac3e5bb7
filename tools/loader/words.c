/*
 * Reads the words of the loading tool and compares nothing: `./vexil-compat` asks it before the library is built. Exit status: 4 if images
 * are to be read, 5 if the words asked for help and have it, 2 if they are bad usage. It is never 0, which means Compatible.
 */
#include "options.h"
#include "status.h"

#include <signal.h>

enum { TO_BE_RUN = 4, HELPED = 5 };

int main(int count, char **words)
{
    signal(SIGPIPE, SIG_IGN);
    switch (read_options(count, words).action) {
    case BAD_USAGE:
        return FAILED;
    case ANSWERED:
        return printed(HELPED);
    default:
        return TO_BE_RUN;
    }
}

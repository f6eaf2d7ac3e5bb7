#include "status.h"

#include <stdio.h>

int printed(int status)
{
    if (fflush(stdout) == 0 && !ferror(stdout))
        return status;
    perror("vexil-compat: standard output");
    return FAILED;
}

/* The verdicts on two images, and the calls of each. */
#ifndef VERDICTS_H
#define VERDICTS_H

#include <stddef.h>
#include <stdint.h>

enum verdict { PLAIN, WITH_IMPORTS, MENDED, VERDICTS };

struct calls {
    uint64_t (*verdict)(const uint8_t *, size_t, const uint8_t *, size_t, uint64_t);
    uint64_t (*values)(const uint8_t *, size_t, const uint8_t *, size_t, uint64_t *, size_t);
    uint64_t (*report)(const uint8_t *, size_t, const uint8_t *, size_t, uint8_t *, size_t);
};

extern const struct calls calls_of[VERDICTS];

#endif

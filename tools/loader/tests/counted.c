/*
 * Counts the calls that the loading tool makes of the library, which answers as it does: the linker's --wrap leads them through here. At the
 * end a line on standard error tells how many there were of each that was called.
 */
#include "vexil_compat.h"

#include <stdio.h>

enum { VERDICT, VALUES, REPORT, LISTING, LISTING_VERDICT, CALLS };

static unsigned made[CALLS];

__attribute__((destructor)) static void tell(void)
{
    static const char *const names[CALLS] = {"verdict", "values", "report", "listing", "listing_verdict"};
    fputs("calls:", stderr);
    for (int call = 0; call < CALLS; call++) {
        if (made[call] != 0)
            fprintf(stderr, " %s %u", names[call], made[call]);
    }
    fputc('\n', stderr);
}

#define PAIR const uint8_t *old_image, size_t old_len, const uint8_t *new_image, size_t new_len
#define LENT old_image, old_len, new_image, new_len
/* One call, by its name, what stands behind its images, and how that is handed on. */
#define WRAPPED(call, name, parameters, arguments) \
    uint64_t __real_##name parameters;             \
    uint64_t __wrap_##name parameters;             \
    uint64_t __wrap_##name parameters              \
    {                                              \
        made[call]++;                              \
        return __real_##name arguments;            \
    }

/* The calls of one verdict, by how their names start. */
#define WRAPPED_CALLS(calls)                                                                                \
    WRAPPED(VERDICT, calls##verdict, (PAIR, uint64_t selector), (LENT, selector))                           \
    WRAPPED(VALUES, calls##values, (PAIR, uint64_t *values, size_t values_len), (LENT, values, values_len)) \
    WRAPPED(REPORT, calls##report, (PAIR, uint8_t *out, size_t out_len), (LENT, out, out_len))

WRAPPED_CALLS(vexil_compat_)
WRAPPED_CALLS(vexil_compat_imports_)
WRAPPED_CALLS(vexil_compat_mended_)
WRAPPED(LISTING, vexil_compat_listing, (const uint8_t *image, size_t len, uint8_t *out, size_t out_len), (image, len, out, out_len))
WRAPPED(LISTING_VERDICT, vexil_compat_listing_verdict, (const uint8_t *image, size_t len, uint64_t out_len, uint64_t selector),
        (image, len, out_len, selector))

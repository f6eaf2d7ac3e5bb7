/* A library that reads or writes one byte too many, at the place that OVERRUN names: the loading tool must fault on it. */
#include "vexil_compat.h"

#include <string.h>

enum { OLD_IMAGE, NEW_IMAGE, VALUES_BUFFER, REPORT_BUFFER };

static volatile uint8_t seen;

/* Of every pair: Breaking, with a report of eight bytes. */
uint64_t vexil_compat_values(const uint8_t *old_image, size_t old_len, const uint8_t *new_image, size_t new_len, uint64_t *values, size_t values_len)
{
    if (OVERRUN == OLD_IMAGE)
        seen = old_image[old_len];
    if (OVERRUN == NEW_IMAGE)
        seen = new_image[new_len];
    memset(values, 0, values_len * sizeof *values);
    values[VEXIL_COMPAT_SELECT_RESULT] = VEXIL_COMPAT_RESULT_BREAKING;
    values[VEXIL_COMPAT_SELECT_LENGTH] = 8;
    if (OVERRUN == VALUES_BUFFER)
        values[values_len] = 0;
    return VEXIL_COMPAT_REFUSAL_NONE;
}

uint64_t vexil_compat_report(const uint8_t *old_image, size_t old_len, const uint8_t *new_image, size_t new_len, uint8_t *out, size_t out_len)
{
    (void)old_image, (void)old_len, (void)new_image, (void)new_len;
    memset(out, 'x', out_len);
    if (OVERRUN == REPORT_BUFFER)
        out[out_len] = 0;
    return out_len;
}

uint64_t vexil_compat_verdict(const uint8_t *old_image, size_t old_len, const uint8_t *new_image, size_t new_len, uint64_t selector)
{
    (void)old_image, (void)old_len, (void)new_image, (void)new_len, (void)selector;
    return 0;
}

#define PAIR const uint8_t *old_image, size_t old_len, const uint8_t *new_image, size_t new_len
#define LENT old_image, old_len, new_image, new_len
/* A verdict whose calls do the same, by how their names start. */
#define LIKEWISE(calls)                                                                                                         \
    uint64_t calls##values(PAIR, uint64_t *values, size_t values_len) { return vexil_compat_values(LENT, values, values_len); } \
    uint64_t calls##report(PAIR, uint8_t *out, size_t out_len) { return vexil_compat_report(LENT, out, out_len); }              \
    uint64_t calls##verdict(PAIR, uint64_t selector) { return vexil_compat_verdict(LENT, selector); }

LIKEWISE(vexil_compat_imports_)
LIKEWISE(vexil_compat_mended_)

uint64_t vexil_compat_listing(const uint8_t *image, size_t len, uint8_t *out, size_t out_len)
{
    (void)image, (void)len;
    memset(out, 'x', out_len);
    if (OVERRUN == REPORT_BUFFER)
        out[out_len] = 0;
    return out_len;
}

uint64_t vexil_compat_listing_verdict(const uint8_t *image, size_t len, uint64_t out_len, uint64_t selector)
{
    (void)out_len;
    if (OVERRUN == OLD_IMAGE)
        seen = image[len];
    return selector == VEXIL_COMPAT_SELECT_LENGTH ? 8 : 0;
}

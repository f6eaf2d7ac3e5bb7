/*
 * The loading tool: compares two image files and prints the report or the refusal, or the contents of one. `--help` says how it is called.
 */
#include "files.h"
#include "options.h"
#include "refusals.h"
#include "status.h"
#include "verdicts.h"
#include "vexil_compat.h"

#include <inttypes.h>
#include <signal.h>
#include <stdio.h>

static int fail(const char *what)
{
    fprintf(stderr, "vexil-compat: %s\n", what);
    return FAILED;
}

/* At once: to find out where a fault is may take a while. */
static void print_refusal(uint64_t number, uint64_t side)
{
    printf("refused %" PRIu64 " %s\n", number, vexil_compat_side_name(side));
    fflush(stdout);
}

/* A line for each kind of change that there is. */
static void print_counts(const uint64_t *values)
{
    for (uint64_t kind = 0; kind < VEXIL_COMPAT_KINDS; kind++) {
        uint64_t count = values[vexil_compat_count_of(kind)];
        if (count != 0)
            printf("%s %" PRIu64 "\n", vexil_compat_kind_name(kind), count);
    }
}

static int refuse_pair(const struct image *old, const struct image *new, const struct calls *calls, const uint64_t *values)
{
    uint64_t number = values[VEXIL_COMPAT_SELECT_NUMBER], side = values[VEXIL_COMPAT_SELECT_SIDE];
    print_refusal(number, side);
    switch (number) {
    case VEXIL_COMPAT_REFUSAL_ALIAS_PAIR:
        explain_alias_pair(old, new, calls);
        break;
    case VEXIL_COMPAT_REFUSAL_MIXED:
        explain_mixed(old, new);
        break;
    default:
        explain_image(side == VEXIL_COMPAT_SIDE_NEW ? new : old, number);
    }
    return REFUSED;
}

/* One comparison for all values, and one more for the report, in a buffer that is just as long as it. */
static int compare(const struct options *options)
{
    const struct calls *calls = &calls_of[options->verdict];
    struct image old = read_image(options->paths[0]), new = read_image(options->paths[1]);
    uint64_t *values = guarded(VEXIL_COMPAT_VALUES * sizeof *values);
    uint64_t number = calls->values(old.bytes, old.length, new.bytes, new.length, values, VEXIL_COMPAT_VALUES);
    if (number != VEXIL_COMPAT_REFUSAL_NONE)
        return refuse_pair(&old, &new, calls, values);
    uint64_t length = values[VEXIL_COMPAT_SELECT_LENGTH];
    uint8_t *out = guarded(length);
    if (calls->report(old.bytes, old.length, new.bytes, new.length, out, length) != length)
        return fail("the report is not as long as the verdict says");
    if (options->counts)
        print_counts(values);
    fwrite(out, 1, length, stdout);
    return vexil_compat_is_compatible(number, values[VEXIL_COMPAT_SELECT_RESULT]) ? LOAD : DO_NOT_LOAD;
}

static int list(const struct options *options)
{
    struct image image = read_image(options->paths[0]);
    uint64_t number = vexil_compat_listing_verdict(image.bytes, image.length, UINT64_MAX, VEXIL_COMPAT_SELECT_NUMBER);
    if (number != VEXIL_COMPAT_REFUSAL_NONE) {
        print_refusal(number, VEXIL_COMPAT_SIDE_OLD);
        explain_image(&image, number);
        return REFUSED;
    }
    uint64_t length = vexil_compat_listing_verdict(image.bytes, image.length, UINT64_MAX, VEXIL_COMPAT_SELECT_LENGTH);
    uint8_t *out = guarded(length);
    if (vexil_compat_listing(image.bytes, image.length, out, length) != length)
        return fail("the listing is not as long as its verdict says");
    fwrite(out, 1, length, stdout);
    return LOAD;
}

static int answer(const struct options *options)
{
    switch (options->action) {
    case COMPARE:
        return compare(options);
    case LIST:
        return list(options);
    case ANSWERED:
        return LOAD;
    default:
        return FAILED;
    }
}

int main(int count, char **words)
{
    /* So that a pipe that nobody reads is told like a full disk. */
    signal(SIGPIPE, SIG_IGN);
    struct options options = read_options(count, words);
    return printed(answer(&options));
}

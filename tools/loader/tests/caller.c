/*
 * A program that knows the header alone, in C and in C++: every call and every inline function on the pair of the requirements, with NULL
 * wherever nothing is lent, and each verdict on pairs that tell it from the others. It prints `all holds`; or, with status 1, what does not hold.
 */
#include <vexil_compat.h>

#include <stdio.h>
#include <string.h>

/* In format 2 if nothing else is said. `ride` with message `Drive`: `speed` u16 at 0, and in the new one `limit` u16 at 1. */
static const uint8_t old_image[] = {
    2, 0, 1, 0, 1, 0, 1, 0, 21, 0, 25, 0, 0, 0, 0, 0, 4, 'r', 'i', 'd', 'e', 0, 5, 'D', 'r', 'i', 'v', 'e', 0, 1, 0,
    0, 0, 0, 0, 5, 's', 'p', 'e', 'e', 'd', 0, 0, 0, 0, 2,
};
static const uint8_t new_image[] = {
    2, 0, 1, 0, 1, 0, 1, 0, 21, 0, 40, 0, 0, 0, 0, 0, 4, 'r', 'i', 'd', 'e', 0, 5, 'D', 'r', 'i', 'v', 'e', 0, 2, 0,
    0, 0, 0, 0, 5, 's', 'p', 'e', 'e', 'd', 0, 0, 0, 0, 2, 1, 0, 0, 0, 5, 'l', 'i', 'm', 'i', 't', 0, 0, 0, 0, 2,
};
/* `A` is declared and has a field of type `B`, an import, which is a `u8` or, with another last byte, a `u16`. */
static const uint8_t import_old[] = {
    2, 0, 2, 0, 1, 0, 0, 0, 20, 0, 20, 0, 40, 0, 5, 0, 0, 0, 0, 0, 0, 1, 'A', 0, 1, 0, 0, 0, 0, 0, 1, 'x', 0, 0, 0, 3, 1, 0, 0, 0,
    4, 1, 'B', 0, 1,
};
/* `A` has a field of type `vec3<f32>` or, with another last byte, `vec3<f64>`. */
static const uint8_t vector_old[] = {
    2, 0, 1, 0, 1, 0, 0, 0, 16, 0, 18, 0, 0, 0, 0, 0, 0, 1, 'A', 0, 1, 0, 0, 0, 0, 0, 1, 'x', 0, 0, 0, 11, 0, 9,
};
/* Flags `A` of one byte or, with another byte before the two of the count, of two; and in format 1, which lacks that byte. */
static const uint8_t width_old[] = {2, 0, 1, 0, 1, 0, 0, 0, 16, 0, 6, 0, 0, 0, 0, 0, 2, 1, 'A', 1, 0, 0};
static const uint8_t width_none[] = {1, 0, 1, 0, 1, 0, 0, 0, 16, 0, 5, 0, 0, 0, 0, 0, 2, 1, 'A', 0, 0};
/* Flags `A` in format 3: without bits, and bit 3 struck off; the same without that; and with bit 3, `x`. */
static const uint8_t struck[] = {3, 0, 1, 0, 1, 0, 0, 0, 16, 0, 12, 0, 0, 0, 0, 0, 2, 1, 'A', 1, 0, 0, 1, 0, 3, 0, 0, 0};
static const uint8_t not_struck[] = {3, 0, 1, 0, 1, 0, 0, 0, 16, 0, 8, 0, 0, 0, 0, 0, 2, 1, 'A', 1, 0, 0, 0, 0};
static const uint8_t used[] = {3, 0, 1, 0, 1, 0, 0, 0, 16, 0, 14, 0, 0, 0, 0, 0, 2, 1, 'A', 1, 1, 0, 3, 0, 0, 0, 1, 'x', 0, 0};
static uint8_t import_new[sizeof import_old], vector_new[sizeof vector_old], width_new[sizeof width_old];
static const char report[] = "FieldAdded;Major;Drive;+limit;field 'limit' @1 was added\nBreaking;Major;1\n";
static const char listing[] = "0;message;Drive\n";

static const size_t old_len = sizeof old_image, new_len = sizeof new_image, report_len = sizeof report - 1, listing_len = sizeof listing - 1;
static uint8_t out[256];
static int status = 0;
static const char *held = ""; /* what is held to its facts */

/* The calls of a verdict, and what it says of the pairs that not all verdicts tell alike. */
static const struct verdict {
    const char *name;
    bool (*may_load)(const uint8_t *, size_t, const uint8_t *, size_t);
    uint64_t (*value)(const uint8_t *, size_t, const uint8_t *, size_t, uint64_t);
    vexil_compat_values_call *values;
    uint64_t (*report)(const uint8_t *, size_t, const uint8_t *, size_t, uint8_t *, size_t);
    bool loads_changed_import;
    bool loads_same_vector;
    bool ignores_formats; /* and what only a later one holds: widths, tombstones */
} verdicts[] = {
    {"the first", vexil_compat_may_load, vexil_compat_verdict, vexil_compat_values, vexil_compat_report, true, false, true},
    {"with imports", vexil_compat_imports_may_load, vexil_compat_imports_verdict, vexil_compat_imports_values, vexil_compat_imports_report, false, false, true},
    {"mended", vexil_compat_mended_may_load, vexil_compat_mended_verdict, vexil_compat_mended_values, vexil_compat_mended_report, true, true, false},
};

#define HOLD(fact) hold(fact, #fact)

static void hold(bool holds, const char *fact)
{
    if (!holds) {
        printf("does not hold, %s: %s\n", held, fact);
        status = 1;
    }
}

static bool is(const char *name, const char *wanted)
{
    return strcmp(name, wanted) == 0;
}

static void may_load(const struct verdict *by)
{
    HOLD(by->may_load(old_image, old_len, old_image, old_len));
    HOLD(!by->may_load(old_image, old_len, new_image, new_len));
    HOLD(!by->may_load(old_image, old_len, new_image, new_len - 1));
    HOLD(!by->may_load(NULL, 0, old_image, old_len));
    HOLD(!by->may_load(old_image, old_len, NULL, 0));
    HOLD(!by->may_load(NULL, 0, NULL, 0));
    HOLD(by->may_load(import_old, sizeof import_old, import_old, sizeof import_old));
    HOLD(by->may_load(import_old, sizeof import_old, import_new, sizeof import_new) == by->loads_changed_import);
    HOLD(by->may_load(vector_old, sizeof vector_old, vector_old, sizeof vector_old) == by->loads_same_vector);
    HOLD(by->may_load(vector_new, sizeof vector_new, vector_new, sizeof vector_new) == by->loads_same_vector);
    HOLD(!by->may_load(vector_old, sizeof vector_old, vector_new, sizeof vector_new));
    HOLD(vexil_compat_may_load_by(by->values, old_image, old_len, old_image, old_len));
    HOLD(!vexil_compat_may_load_by(by->values, old_image, old_len, new_image, new_len));
}

/* A verdict that compares widths refuses an image that has none, also against itself. */
static void widths(const struct verdict *by)
{
    const uint64_t mixed = by->ignores_formats ? VEXIL_COMPAT_REFUSAL_NONE : VEXIL_COMPAT_REFUSAL_MIXED;
    const uint64_t both = by->ignores_formats ? VEXIL_COMPAT_SIDE_NONE : VEXIL_COMPAT_SIDE_BOTH;
    HOLD(by->may_load(width_old, sizeof width_old, width_old, sizeof width_old));
    HOLD(by->may_load(width_old, sizeof width_old, width_new, sizeof width_new) == by->ignores_formats);
    HOLD(by->value(width_old, sizeof width_old, width_new, sizeof width_new, vexil_compat_count_of(VEXIL_COMPAT_KIND_WIDTH_CHANGED))
         == !by->ignores_formats);
    HOLD(by->may_load(width_none, sizeof width_none, width_none, sizeof width_none) == by->ignores_formats);
    HOLD(by->value(width_none, sizeof width_none, width_new, sizeof width_new, VEXIL_COMPAT_SELECT_NUMBER) == mixed);
    HOLD(by->value(width_old, sizeof width_old, width_none, sizeof width_none, VEXIL_COMPAT_SELECT_NUMBER) == mixed);
    HOLD(by->value(width_old, sizeof width_old, width_none, sizeof width_none, VEXIL_COMPAT_SELECT_SIDE) == both);
}

static uint64_t changes(const struct verdict *by, const uint8_t *image, size_t len, uint64_t kind)
{
    return by->value(struck, sizeof struck, image, len, vexil_compat_count_of(kind));
}

/* A number that was struck off and is dropped or used; and format 3 beside format 2. */
static void tombstones(const struct verdict *by)
{
    const uint64_t mixed = by->ignores_formats ? VEXIL_COMPAT_REFUSAL_NONE : VEXIL_COMPAT_REFUSAL_MIXED;
    const uint64_t told = !by->ignores_formats;
    HOLD(by->may_load(struck, sizeof struck, struck, sizeof struck));
    HOLD(by->may_load(not_struck, sizeof not_struck, struck, sizeof struck));
    HOLD(by->may_load(not_struck, sizeof not_struck, used, sizeof used));
    HOLD(by->may_load(struck, sizeof struck, not_struck, sizeof not_struck) == by->ignores_formats);
    HOLD(by->may_load(struck, sizeof struck, used, sizeof used) == by->ignores_formats);
    HOLD(changes(by, not_struck, sizeof not_struck, VEXIL_COMPAT_KIND_TOMBSTONE_DROPPED) == told);
    HOLD(changes(by, not_struck, sizeof not_struck, VEXIL_COMPAT_KIND_TOMBSTONE_REUSED) == 0);
    HOLD(changes(by, used, sizeof used, VEXIL_COMPAT_KIND_TOMBSTONE_REUSED) == told);
    HOLD(changes(by, used, sizeof used, VEXIL_COMPAT_KIND_TOMBSTONE_DROPPED) == 0);
    HOLD(by->value(width_old, sizeof width_old, not_struck, sizeof not_struck, VEXIL_COMPAT_SELECT_NUMBER) == mixed);
    HOLD(by->value(not_struck, sizeof not_struck, width_old, sizeof width_old, VEXIL_COMPAT_SELECT_NUMBER) == mixed);
    HOLD(by->value(width_none, sizeof width_none, not_struck, sizeof not_struck, VEXIL_COMPAT_SELECT_NUMBER) == mixed);
}

static void answers(const struct verdict *by)
{
    uint64_t values[VEXIL_COMPAT_VALUES];
    HOLD(by->values(old_image, old_len, new_image, new_len, values, VEXIL_COMPAT_VALUES) == VEXIL_COMPAT_REFUSAL_NONE);
    for (uint64_t selector = 0; selector < VEXIL_COMPAT_VALUES; selector++)
        HOLD(by->value(old_image, old_len, new_image, new_len, selector) == values[selector]);
    HOLD(values[VEXIL_COMPAT_SELECT_BUMP] == VEXIL_COMPAT_BUMP_MAJOR);
    HOLD(values[VEXIL_COMPAT_SELECT_RESULT] == VEXIL_COMPAT_RESULT_BREAKING);
    HOLD(values[VEXIL_COMPAT_SELECT_LENGTH] == report_len);
    HOLD(values[vexil_compat_count_of(VEXIL_COMPAT_KIND_FIELD_ADDED)] == 1);
    memset(out, 0, sizeof out);
    HOLD(by->report(old_image, old_len, new_image, new_len, out, report_len - 1) == 0 && out[0] == 0);
    HOLD(by->report(old_image, old_len, new_image, new_len, out, report_len) == report_len && memcmp(out, report, report_len) == 0);
    HOLD(by->report(old_image, old_len, new_image, new_len, out, sizeof out) == report_len);
}

/* NULL is lent with length 0, in every place and in all of them. */
static void nothing_lent(const struct verdict *by)
{
    const uint64_t short_head = VEXIL_COMPAT_REFUSAL_SHORT_HEAD;
    uint64_t value = 0;
    HOLD(by->value(NULL, 0, new_image, new_len, VEXIL_COMPAT_SELECT_SIDE) == VEXIL_COMPAT_SIDE_OLD);
    HOLD(by->value(old_image, old_len, NULL, 0, VEXIL_COMPAT_SELECT_SIDE) == VEXIL_COMPAT_SIDE_NEW);
    HOLD(by->value(NULL, 0, NULL, 0, VEXIL_COMPAT_SELECT_NUMBER) == short_head);
    HOLD(by->values(old_image, old_len, new_image, new_len, NULL, 0) == 0);
    HOLD(by->values(NULL, 0, NULL, 0, NULL, 0) == short_head);
    HOLD(by->values(NULL, 0, NULL, 0, &value, 1) == short_head && value == short_head);
    HOLD(by->report(old_image, old_len, new_image, new_len, NULL, 0) == 0);
    HOLD(by->report(NULL, 0, NULL, 0, NULL, 0) == 0);
}

static void is_compatible(void)
{
    for (uint64_t number = 0; number < 40; number++) {
        for (uint64_t result = 0; result < 4; result++)
            HOLD(vexil_compat_is_compatible(number, result) == (number == 0 && result == 0));
    }
}

static void listings(void)
{
    HOLD(vexil_compat_listing(old_image, old_len, out, sizeof out) == listing_len && memcmp(out, listing, listing_len) == 0);
    HOLD(vexil_compat_listing_verdict(old_image, old_len, UINT64_MAX, VEXIL_COMPAT_SELECT_LENGTH) == listing_len);
    HOLD(vexil_compat_listing_verdict(old_image, old_len, listing_len - 1, VEXIL_COMPAT_SELECT_NUMBER) == VEXIL_COMPAT_REFUSAL_FULL);
    HOLD(vexil_compat_listing(old_image, old_len, NULL, 0) == 0);
    HOLD(vexil_compat_listing(NULL, 0, NULL, 0) == 0);
    HOLD(vexil_compat_listing_verdict(NULL, 0, 0, VEXIL_COMPAT_SELECT_NUMBER) == VEXIL_COMPAT_REFUSAL_SHORT_HEAD);
}

static void names(void)
{
    HOLD(is(vexil_compat_refusal_name(VEXIL_COMPAT_REFUSAL_NONE), "none"));
    HOLD(is(vexil_compat_refusal_name(VEXIL_COMPAT_REFUSAL_SHORT_HEAD), "short head"));
    HOLD(is(vexil_compat_refusal_name(VEXIL_COMPAT_REFUSAL_FULL), "full"));
    HOLD(is(vexil_compat_refusal_name(VEXIL_COMPAT_REFUSAL_MIXED), "mixed"));
    HOLD(is(vexil_compat_side_name(VEXIL_COMPAT_SIDE_BOTH), "both"));
    HOLD(is(vexil_compat_bump_name(VEXIL_COMPAT_BUMP_MAJOR), "Major"));
    HOLD(is(vexil_compat_result_name(VEXIL_COMPAT_RESULT_BREAKING), "Breaking"));
    HOLD(is(vexil_compat_kind_name(VEXIL_COMPAT_KIND_FIELD_ADDED), "FieldAdded"));
    HOLD(is(vexil_compat_kind_name(VEXIL_COMPAT_KIND_WIDTH_CHANGED), "WidthChanged"));
    HOLD(is(vexil_compat_kind_name(VEXIL_COMPAT_KIND_TOMBSTONE_REUSED), "TombstoneReused"));
    HOLD(is(vexil_compat_kind_name(VEXIL_COMPAT_KIND_TOMBSTONE_DROPPED), "TombstoneDropped"));
    HOLD(is(vexil_compat_refusal_name(VEXIL_COMPAT_REFUSAL_FULL + 1), "unknown"));
    HOLD(is(vexil_compat_refusal_name(VEXIL_COMPAT_REFUSAL_MIXED + 1), "unknown"));
    HOLD(is(vexil_compat_side_name(4), "unknown") && is(vexil_compat_bump_name(3), "unknown") && is(vexil_compat_result_name(2), "unknown"));
    HOLD(vexil_compat_count_of(VEXIL_COMPAT_KIND_TOMBSTONE_DROPPED) == VEXIL_COMPAT_VALUES - 1);
    HOLD(is(vexil_compat_kind_name(VEXIL_COMPAT_KINDS), "unknown") && is(vexil_compat_kind_name(UINT64_MAX), "unknown"));
}

int main(void)
{
    memcpy(import_new, import_old, sizeof import_old);
    memcpy(vector_new, vector_old, sizeof vector_old);
    memcpy(width_new, width_old, sizeof width_old);
    import_new[sizeof import_new - 1] = 2;
    vector_new[sizeof vector_new - 1] = 10;
    width_new[sizeof width_new - 3] = 2;
    for (size_t i = 0; i < sizeof verdicts / sizeof *verdicts; i++) {
        held = verdicts[i].name;
        may_load(&verdicts[i]);
        widths(&verdicts[i]);
        tombstones(&verdicts[i]);
        answers(&verdicts[i]);
        nothing_lent(&verdicts[i]);
    }
    held = "all verdicts";
    is_compatible();
    listings();
    names();
    if (status == 0)
        puts("all holds");
    return status;
}

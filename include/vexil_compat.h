/*
 * Whether a new Vexil schema may be loaded where an old one runs: three verdicts on two images, each with its report; and the contents of
 * one image. docs/FORMAT.md describes images, refusals and reports.
 *
 * Who only wants to know whether to load asks vexil_compat_may_load; or vexil_compat_imports_may_load, which looks at what the schemas import,
 * too; or vexil_compat_mended_may_load, where schemas hold vectors, quaternions or matrices, or where the widths of enums and flags or
 * numbers that were struck off matter: it asks for images of format 2 on both sides, or of format 3, which alone holds such numbers. True is
 * Compatible, and everything else is false.
 * README, "Which verdict", tells when to ask which. None of them sees all: README, "What is not seen".
 *
 * The library is libvexil_compat.a, for x86-64-v2: `make` proves and builds it, and `make install PREFIX=..` installs it with this header and
 * a file for pkg-config, `vexil_compat`. This header is for C99 and later, and for C++.
 *
 * Any bytes may be lent as images: faulty ones are refused by number, and every call returns.
 *
 *   - Lengths are in bytes, but `values_len` is in values. Every pointer is aligned and valid for its length; it may be NULL where its
 *     length is 0.
 *   - Both images are only read. They may overlap each other, or be the same.
 *   - The buffer overlaps no image.
 *   - Every call, of one image too, uses less than 28 KiB of stack: measured on all recorded pairs, and not proved.
 *   - A comparison takes microseconds for small images, and grows with the square of what one declaration holds, by the mended verdict also
 *     of the numbers that it strikes off. The longest that were found, on a virtual machine, of images of 32,768 bytes: 2,700 fields of which
 *     the last differs, 0.2 s for the values and 0.4 s for the report; 1,259 fields of `bits`, none of them kept, 0.4 s and 0.9 s;
 *     2,762 fields of mixed types, none of them kept, 1.5 s and 3.0 s. With imports they take up to three quarters more; the mended verdict
 *     takes about as long as the first, and of 8,180 numbers struck off, which the first skips, 0.2 s and 0.4 s. docs/BENCHMARKS.md has the
 *     tables. Nothing is waited for, and longer ones may be found.
 *   - Nothing is allocated and nothing is kept from one call to the next, so that threads may call at the same time.
 *
 * Each number has a name with the prefix of what it is: VEXIL_COMPAT_SELECT_.. is asked for; VEXIL_COMPAT_REFUSAL_.., _SIDE_.., _BUMP_.. and
 * _RESULT_.. are answered; VEXIL_COMPAT_KIND_.. is a kind of change.
 */
#ifndef VEXIL_COMPAT_H
#define VEXIL_COMPAT_H

#include <stddef.h>
#include <stdint.h>
#ifndef __cplusplus
#include <stdbool.h>
#endif

#ifdef __cplusplus
extern "C" {
#endif

/* The version of this header: the first number rises if a program may have to change, the second if something is added. */
#define VEXIL_COMPAT_VERSION_MAJOR 2
#define VEXIL_COMPAT_VERSION_MINOR 1
#define VEXIL_COMPAT_VERSION "2.1"

/* The toolchain that the library is proved with, as `rt version` names it. */
#define VEXIL_COMPAT_KIT "rattle-kit-13f logic dac8208d650f15bf"

/* The longest image that is not refused by VEXIL_COMPAT_REFUSAL_LONG. */
#define VEXIL_COMPAT_IMAGE_BYTES 32768

/* What the verdict is asked for. */
enum vexil_compat_selector {
    VEXIL_COMPAT_SELECT_NUMBER = 0, /* the refusal, VEXIL_COMPAT_REFUSAL_NONE if there is a verdict */
    VEXIL_COMPAT_SELECT_SIDE = 1,   /* the image that is refused */
    VEXIL_COMPAT_SELECT_BUMP = 2,   /* the largest bump of a change */
    VEXIL_COMPAT_SELECT_RESULT = 3, /* whether the new schema may be loaded, if there is a verdict */
    VEXIL_COMPAT_SELECT_LENGTH = 4, /* the length of the report */
    VEXIL_COMPAT_SELECT_COUNTS = 5  /* the first of the counts: vexil_compat_count_of(kind) */
};

enum vexil_compat_refusal {
    VEXIL_COMPAT_REFUSAL_NONE = 0,
    VEXIL_COMPAT_REFUSAL_LONG = 1,        /* image over 32,768 bytes */
    VEXIL_COMPAT_REFUSAL_SHORT_HEAD = 2,  /* head, contents, ids or namespace run past the end */
    VEXIL_COMPAT_REFUSAL_FORMAT = 3,      /* none of 1, 2 and 3 */
    VEXIL_COMPAT_REFUSAL_CROWDED = 4,     /* over 512 entries or ids, or over 16 namespace segments */
    VEXIL_COMPAT_REFUSAL_CONTENTS = 5,    /* an entry that is not laid out as it must be, or bytes after the last body */
    VEXIL_COMPAT_REFUSAL_KIND = 6,        /* a declaration's kind over 8 */
    VEXIL_COMPAT_REFUSAL_NAME = 7,        /* a byte in a name that is not allowed */
    VEXIL_COMPAT_REFUSAL_BODY = 8,        /* a body that ends early or has bytes left */
    VEXIL_COMPAT_REFUSAL_CODE = 9,        /* another coded byte outside its values */
    VEXIL_COMPAT_REFUSAL_DEEP = 10,       /* a 33rd node or a 9th delta */
    VEXIL_COMPAT_REFUSAL_ALIAS_PAIR = 11, /* of the pair: one name is a generic alias in both images */
    VEXIL_COMPAT_REFUSAL_FULL = 12,       /* a report or a listing is longer than its buffer; of the verdict calls only the listing's gives it */
    VEXIL_COMPAT_REFUSAL_MIXED = 16       /* of the pair, in the mended verdict: one or both are of format 1, or one alone of 3; before 11 */
};

enum vexil_compat_side {
    VEXIL_COMPAT_SIDE_NONE = 0,
    VEXIL_COMPAT_SIDE_OLD = 1, /* also if both images are faulty */
    VEXIL_COMPAT_SIDE_NEW = 2,
    VEXIL_COMPAT_SIDE_BOTH = 3 /* of VEXIL_COMPAT_REFUSAL_ALIAS_PAIR and _MIXED, and of a report's VEXIL_COMPAT_REFUSAL_FULL */
};

enum vexil_compat_bump {
    VEXIL_COMPAT_BUMP_PATCH = 0,
    VEXIL_COMPAT_BUMP_MINOR = 1,
    VEXIL_COMPAT_BUMP_MAJOR = 2
};

enum vexil_compat_result {
    VEXIL_COMPAT_RESULT_COMPATIBLE = 0,
    VEXIL_COMPAT_RESULT_BREAKING = 1
};

enum vexil_compat_kind {
    VEXIL_COMPAT_KIND_FIELD_ADDED = 0,
    VEXIL_COMPAT_KIND_FIELD_REMOVED = 1,
    VEXIL_COMPAT_KIND_FIELD_TYPE_CHANGED = 2,
    VEXIL_COMPAT_KIND_FIELD_ORDINAL_CHANGED = 3, /* always 0 */
    VEXIL_COMPAT_KIND_FIELD_RENAMED = 4,
    VEXIL_COMPAT_KIND_FIELD_DEPRECATED = 5,
    VEXIL_COMPAT_KIND_FIELD_ENCODING_CHANGED = 6,
    VEXIL_COMPAT_KIND_VARIANT_ADDED = 7,
    VEXIL_COMPAT_KIND_VARIANT_REMOVED = 8,
    VEXIL_COMPAT_KIND_VARIANT_ORDINAL_CHANGED = 9, /* always 0 */
    VEXIL_COMPAT_KIND_DECLARATION_ADDED = 10,
    VEXIL_COMPAT_KIND_DECLARATION_REMOVED = 11,
    VEXIL_COMPAT_KIND_DECLARATION_KIND_CHANGED = 12,
    VEXIL_COMPAT_KIND_NAMESPACE_CHANGED = 13,
    VEXIL_COMPAT_KIND_NON_EXHAUSTIVE_CHANGED = 14,
    VEXIL_COMPAT_KIND_FLAGS_BIT_ADDED = 15,
    VEXIL_COMPAT_KIND_FLAGS_BIT_REMOVED = 16,
    VEXIL_COMPAT_KIND_FLAGS_BIT_ORDINAL_CHANGED = 17, /* always 0 */
    VEXIL_COMPAT_KIND_WIDTH_CHANGED = 18,    /* this one and those that follow: 0 but in the mended verdict */
    VEXIL_COMPAT_KIND_TOMBSTONE_REUSED = 19, /* 0 but of two images of format 3, as the next */
    VEXIL_COMPAT_KIND_TOMBSTONE_DROPPED = 20
};

/* How many kinds of change there are, and how many selectors that may give anything but 0. */
#define VEXIL_COMPAT_KINDS 21
#define VEXIL_COMPAT_VALUES 26

/*
 * There are three verdicts on two images, with three calls each. Values, refusals, lines and their order mean the same in all of them.
 *
 *   - The first, `vexil_compat_..`, is that of Vexil's compat.rs. It compares the declarations that the images list, of one name the last. In
 *     it a type that holds a vector, a quaternion or a matrix is never equal, not even to itself.
 *   - The one with imports, `vexil_compat_imports_..`, also compares the declarations that are reached: named in a compared type of such a
 *     declaration, at any depth of that type, or in a compared type of a reached one, and so on. Each name is compared once: the listed
 *     declaration stands before a reached one, and of reached ones that with the highest id. VEXIL_COMPAT_REFUSAL_ALIAS_PAIR is tested over
 *     all that stand.
 *   - The mended one, `vexil_compat_mended_..`, compares what the first does, and vectors, quaternions and matrices like all other types: by
 *     what they are, and by their inner types. It does not look at imports; no verdict does both. Where the width of an enum or of flags has
 *     changed, it reports VEXIL_COMPAT_KIND_WIDTH_CHANGED, Major. Where a number was struck off, it reports the new schema that uses it again
 *     by VEXIL_COMPAT_KIND_TOMBSTONE_REUSED, and one that neither uses it nor strikes it off by VEXIL_COMPAT_KIND_TOMBSTONE_DROPPED, both
 *     Major. Format 1 stores no widths, and only format 3 numbers that are struck off, so that both images must be of format 2 or both of
 *     format 3: every other pair is refused by VEXIL_COMPAT_REFUSAL_MIXED. The other two verdicts accept every format, mixed too, and ignore
 *     widths and struck-off numbers.
 */

/*
 * The verdict: of all that the new schema changes, the value that `selector` asks for; 0 beyond the counts. A refusal has bump Major,
 * result Breaking, length and counts 0. Only where the number is VEXIL_COMPAT_REFUSAL_NONE is there a verdict to ask for.
 */
uint64_t vexil_compat_verdict(const uint8_t *old_image, size_t old_len,
                              const uint8_t *new_image, size_t new_len,
                              uint64_t selector);
uint64_t vexil_compat_imports_verdict(const uint8_t *old_image, size_t old_len,
                                      const uint8_t *new_image, size_t new_len,
                                      uint64_t selector);
uint64_t vexil_compat_mended_verdict(const uint8_t *old_image, size_t old_len,
                                     const uint8_t *new_image, size_t new_len,
                                     uint64_t selector);

/*
 * All values by one comparison, where each call above makes one: `values[i]` becomes what the verdict answers to selector i, for every
 * place of the buffer, of a refusal too. VEXIL_COMPAT_VALUES places hold all that may differ from 0. Returns the number: 0 is no refusal,
 * and not Compatible, which VEXIL_COMPAT_SELECT_RESULT tells.
 */
uint64_t vexil_compat_values(const uint8_t *old_image, size_t old_len,
                             const uint8_t *new_image, size_t new_len,
                             uint64_t *values, size_t values_len);
uint64_t vexil_compat_imports_values(const uint8_t *old_image, size_t old_len,
                                     const uint8_t *new_image, size_t new_len,
                                     uint64_t *values, size_t values_len);
uint64_t vexil_compat_mended_values(const uint8_t *old_image, size_t old_len,
                                    const uint8_t *new_image, size_t new_len,
                                    uint64_t *values, size_t values_len);

/*
 * Writes the verdict's report at the start of `out` and returns its length; bytes past that length stay as they were. A report is
 * never empty, and it is not ended by a zero byte.
 *
 * 0 is a refusal, and then `out` is as it was. VEXIL_COMPAT_SELECT_NUMBER of the same verdict tells which; if it tells
 * VEXIL_COMPAT_REFUSAL_NONE, the report is longer than `out_len`: that is VEXIL_COMPAT_REFUSAL_FULL, of both sides. To size the buffer, ask
 * VEXIL_COMPAT_SELECT_LENGTH of the same verdict first: names repeat in the lines, so that a report may be many times as long as the
 * images.
 */
uint64_t vexil_compat_report(const uint8_t *old_image, size_t old_len,
                             const uint8_t *new_image, size_t new_len,
                             uint8_t *out, size_t out_len);
uint64_t vexil_compat_imports_report(const uint8_t *old_image, size_t old_len,
                                     const uint8_t *new_image, size_t new_len,
                                     uint8_t *out, size_t out_len);
uint64_t vexil_compat_mended_report(const uint8_t *old_image, size_t old_len,
                                    const uint8_t *new_image, size_t new_len,
                                    uint8_t *out, size_t out_len);

/*
 * The contents of one image: writes a line `id;kind;name` for each entry that is not empty at the start of `out`, each ended by byte 10,
 * and returns their length; bytes past that length stay as they were.
 *
 * 0 is a refusal, and then `out` is as it was, or an image without an entry: VEXIL_COMPAT_SELECT_NUMBER of the verdict below tells which.
 */
uint64_t vexil_compat_listing(const uint8_t *image, size_t len, uint8_t *out, size_t out_len);

/*
 * What the call above answers for a buffer of `out_len` bytes: VEXIL_COMPAT_SELECT_NUMBER (VEXIL_COMPAT_REFUSAL_FULL too),
 * VEXIL_COMPAT_SELECT_SIDE (VEXIL_COMPAT_SIDE_OLD of every refusal) or VEXIL_COMPAT_SELECT_LENGTH. Of a refusal VEXIL_COMPAT_SELECT_BUMP is
 * Major and VEXIL_COMPAT_SELECT_RESULT Breaking, as of two images; every other selector gives 0, which says nothing of loading. With
 * UINT64_MAX bytes the length says how large a buffer is needed.
 */
uint64_t vexil_compat_listing_verdict(const uint8_t *image, size_t len, uint64_t out_len, uint64_t selector);

/* From here on, in C alone: what follows from the calls above, and the words for their numbers. */

/* Whether the number and the result of a verdict on two images say that the new schema may be loaded. */
static inline bool vexil_compat_is_compatible(uint64_t number, uint64_t result)
{
    return number == VEXIL_COMPAT_REFUSAL_NONE && result == VEXIL_COMPAT_RESULT_COMPATIBLE;
}

/* One of the calls that give all values of a verdict on two images. */
typedef uint64_t vexil_compat_values_call(const uint8_t *old_image, size_t old_len,
                                          const uint8_t *new_image, size_t new_len,
                                          uint64_t *values, size_t values_len);

/*
 * Whether the new schema may be loaded where the old one runs, by the verdict whose values call is given. False of Breaking and of every
 * refusal: 0 is the answer to many a selector, and here none of them reads as Compatible by mistake.
 */
static inline bool vexil_compat_may_load_by(vexil_compat_values_call *values_of,
                                            const uint8_t *old_image, size_t old_len,
                                            const uint8_t *new_image, size_t new_len)
{
    uint64_t values[VEXIL_COMPAT_SELECT_RESULT + 1];
    uint64_t number = values_of(old_image, old_len, new_image, new_len, values, VEXIL_COMPAT_SELECT_RESULT + 1);
    return vexil_compat_is_compatible(number, values[VEXIL_COMPAT_SELECT_RESULT]);
}

/* The same by the first verdict, by the one with imports, and by the mended one. */
static inline bool vexil_compat_may_load(const uint8_t *old_image, size_t old_len,
                                         const uint8_t *new_image, size_t new_len)
{
    return vexil_compat_may_load_by(vexil_compat_values, old_image, old_len, new_image, new_len);
}

static inline bool vexil_compat_imports_may_load(const uint8_t *old_image, size_t old_len,
                                                 const uint8_t *new_image, size_t new_len)
{
    return vexil_compat_may_load_by(vexil_compat_imports_values, old_image, old_len, new_image, new_len);
}

static inline bool vexil_compat_mended_may_load(const uint8_t *old_image, size_t old_len,
                                                const uint8_t *new_image, size_t new_len)
{
    return vexil_compat_may_load_by(vexil_compat_mended_values, old_image, old_len, new_image, new_len);
}

/* The selector for how many changes there are of a kind. */
static inline uint64_t vexil_compat_count_of(uint64_t kind)
{
    return VEXIL_COMPAT_SELECT_COUNTS + kind;
}

/* The words for numbers, as reports and tools have them; "unknown" for a number that has none. */
static inline const char *vexil_compat_refusal_name(uint64_t number)
{
    static const char *const names[] = {
        "none", "long", "short head", "format", "crowded", "contents", "kind", "name", "body", "code", "deep", "alias pair", "full",
        "unknown", "unknown", "unknown", "mixed",
    };
    return number < sizeof names / sizeof *names ? names[number] : "unknown";
}

static inline const char *vexil_compat_side_name(uint64_t side)
{
    static const char *const names[] = {"none", "old", "new", "both"};
    return side < sizeof names / sizeof *names ? names[side] : "unknown";
}

static inline const char *vexil_compat_bump_name(uint64_t bump)
{
    static const char *const names[] = {"Patch", "Minor", "Major"};
    return bump < sizeof names / sizeof *names ? names[bump] : "unknown";
}

static inline const char *vexil_compat_result_name(uint64_t result)
{
    static const char *const names[] = {"Compatible", "Breaking"};
    return result < sizeof names / sizeof *names ? names[result] : "unknown";
}

static inline const char *vexil_compat_kind_name(uint64_t kind)
{
    static const char *const names[VEXIL_COMPAT_KINDS] = {
        "FieldAdded",
        "FieldRemoved",
        "FieldTypeChanged",
        "FieldOrdinalChanged",
        "FieldRenamed",
        "FieldDeprecated",
        "FieldEncodingChanged",
        "VariantAdded",
        "VariantRemoved",
        "VariantOrdinalChanged",
        "DeclarationAdded",
        "DeclarationRemoved",
        "DeclarationKindChanged",
        "NamespaceChanged",
        "NonExhaustiveChanged",
        "FlagsBitAdded",
        "FlagsBitRemoved",
        "FlagsBitOrdinalChanged",
        "WidthChanged",
        "TombstoneReused",
        "TombstoneDropped",
    };
    return kind < VEXIL_COMPAT_KINDS ? names[kind] : "unknown";
}

#ifdef __cplusplus
}
#endif

#endif

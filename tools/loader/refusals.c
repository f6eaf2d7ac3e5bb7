#include "refusals.h"
#include "faults.h"
#include "vexil_compat.h"

#include <inttypes.h>
#include <string.h>

/* Without what would break the line. */
static void print_path(const char *path)
{
    for (; *path != '\0'; path++)
        fputc(*path >= 0 && *path < ' ' ? '?' : *path, stderr);
}

static void print_start(const char *path, uint64_t number)
{
    fputs("vexil-compat: ", stderr);
    print_path(path);
    fprintf(stderr, ": refused %" PRIu64 ": %s", number, vexil_compat_refusal_name(number));
}

void explain_image(const struct image *image, uint64_t number)
{
    struct fault fault = find_fault(image->bytes, image->length);
    const char *trouble = trouble_of(image);
    print_start(image->path, number);
    if (trouble != NULL) {
        fprintf(stderr, ": %s", trouble);
    } else if (fault.number == number) {
        fputs(": ", stderr);
        print_fault(stderr, &fault);
    }
    if (is_text(image))
        fputs(" (this is a text and no image: README, \"How to make images\")", stderr);
    fputc('\n', stderr);
}

/* The generic aliases of an accepted image, in a copy in which they can be made configs, which have the same bytes but for their kind. */
struct aliases {
    uint8_t *image;
    size_t length;
    struct place *places;
    size_t count;
};

static struct aliases aliases_of(const struct image *image)
{
    size_t entries = count_entries(image->bytes);
    struct aliases aliases = {guarded(image->length), image->length, guarded(entries * sizeof(struct place)), 0};
    memcpy(aliases.image, image->bytes, image->length);
    for (size_t id = 0; id < entries; id++) {
        struct place place;
        if (find_entry(image->bytes, id, &place) && place.kind == GENERIC_ALIAS)
            aliases.places[aliases.count++] = place;
    }
    return aliases;
}

static void set_kinds(struct aliases *aliases, size_t from, size_t to, uint8_t kind)
{
    for (size_t i = from; i < to; i++)
        aliases->image[aliases->places[i].at] = kind;
}

struct alias_pair {
    struct aliases old;
    struct aliases new;
    const struct calls *calls;
};

static bool is_refused(const struct alias_pair *pair)
{
    const struct aliases *old = &pair->old, *new = &pair->new;
    uint64_t number = pair->calls->verdict(old->image, old->length, new->image, new->length, VEXIL_COMPAT_SELECT_NUMBER);
    return number == VEXIL_COMPAT_REFUSAL_ALIAS_PAIR;
}

/* Leaves one alias of a side, with which the pair is refused, and makes all others configs: of two halves one has it. */
static const struct place *last_alias(const struct alias_pair *pair, struct aliases *side)
{
    size_t from = 0, to = side->count;
    while (to - from > 1) {
        size_t middle = from + (to - from) / 2;
        set_kinds(side, middle, to, CONFIG);
        if (is_refused(pair)) {
            to = middle;
            continue;
        }
        set_kinds(side, from, middle, CONFIG);
        set_kinds(side, middle, to, GENERIC_ALIAS);
        from = middle;
    }
    return &side->places[from];
}

void explain_alias_pair(const struct image *old, const struct image *new, const struct calls *calls)
{
    struct alias_pair pair = {aliases_of(old), aliases_of(new), calls};
    print_start(old->path, VEXIL_COMPAT_REFUSAL_ALIAS_PAIR);
    fputs(": ", stderr);
    print_place(stderr, last_alias(&pair, &pair.old));
    fputs("; ", stderr);
    print_path(new->path);
    fputs(": ", stderr);
    print_place(stderr, last_alias(&pair, &pair.new));
    fputc('\n', stderr);
}

void explain_mixed(const struct image *old, const struct image *new)
{
    print_start(old->path, VEXIL_COMPAT_REFUSAL_MIXED);
    fprintf(stderr, ": format %" PRIu64 "; ", format_of(old->bytes));
    print_path(new->path);
    fprintf(stderr, ": format %" PRIu64, format_of(new->bytes));
    fputs(" (--mended needs format 3 on both sides, or 2 on both, export with `Format::Three` or `Format::Two`: README, "
          "\"How to make images\")\n",
          stderr);
}

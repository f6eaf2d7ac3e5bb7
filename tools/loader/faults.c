#include "faults.h"
#include "cursor.h"
#include "vexil_compat.h"

#include <inttypes.h>

enum { FIRST_FORMAT = 1, LAST_FORMAT = 3 };
enum { HEAD_BYTES = 8, PAIR_BYTES = 4, ID_BYTES = 4, MOST_ENTRIES = 512, MOST_IDS = 512, MOST_SEGMENTS = 16 };

struct head {
    size_t entries;
    size_t ids;
    size_t segments;
};

uint64_t format_of(const uint8_t *image)
{
    return number_at(image, 2);
}

/* A number of the head. */
static bool count_at(struct cursor *c, size_t at, const char *what, size_t most, size_t *count)
{
    *count = number_at(c->image + at, 2);
    return *count <= most || refuse(c, VEXIL_COMPAT_REFUSAL_CROWDED, at, (struct found){what, VALUE, *count});
}

/* All eight bytes are there before the first of them is judged. */
static bool read_head(struct cursor *c, struct head *head)
{
    if (!take(c, HEAD_BYTES, "head"))
        return false;
    c->format = format_of(c->image);
    if (c->format < FIRST_FORMAT || c->format > LAST_FORMAT)
        return refuse(c, VEXIL_COMPAT_REFUSAL_FORMAT, 0, (struct found){"format", VALUE, c->format});
    return count_at(c, 2, "N", MOST_ENTRIES, &head->entries) && count_at(c, 4, "M", MOST_IDS, &head->ids)
        && count_at(c, 6, "S", MOST_SEGMENTS, &head->segments);
}

static bool read_front(struct cursor *c, struct head *head)
{
    if (!read_head(c, head) || !take(c, PAIR_BYTES * head->entries, "contents") || !take(c, ID_BYTES * head->ids, "ids"))
        return false;
    for (size_t i = 0; i < head->segments; i++) {
        if (!read_name(c, "segment"))
            return false;
    }
    return true;
}

struct body {
    size_t offset;
    size_t length;
};

static size_t pair_at(size_t id)
{
    return HEAD_BYTES + PAIR_BYTES * id;
}

static struct body body_of(const uint8_t *image, size_t id)
{
    const uint8_t *pair = image + pair_at(id);
    return (struct body){number_at(pair, 2), number_at(pair + 2, 2)};
}

static bool is_empty(struct body body)
{
    return body.offset == 0 && body.length == 0;
}

static bool refuse_entry(struct cursor *c, size_t id, struct found found)
{
    return refuse(c, VEXIL_COMPAT_REFUSAL_CONTENTS, pair_at(id), found);
}

/* Whether the body of an entry starts where the one before it ends, which then is where it ends itself. */
static bool judge_entry(struct cursor *c, size_t id, size_t *end)
{
    struct body body = body_of(c->image, id);
    if (is_empty(body))
        return true;
    c->fault.place.entry = (int)id;
    if (body.length == 0)
        return refuse_entry(c, id, (struct found){"entry of no length", OFFSET, body.offset});
    if (body.offset > *end)
        return refuse_entry(c, id, (struct found){"gap before entry", BYTES, body.offset - *end});
    if (body.offset < *end)
        return refuse_entry(c, id, (struct found){"entry too early", BYTES, *end - body.offset});
    *end += body.length;
    return *end <= c->end || refuse_entry(c, id, (struct found){"entry past the end", BYTES, *end - c->end});
}

/* The bodies stand in the order of the contents without gaps, from the end of the names to that of the image. */
static bool judge_contents(struct cursor *c, const struct head *head)
{
    size_t end = c->at;
    for (size_t id = 0; id < head->entries; id++) {
        if (!judge_entry(c, id, &end))
            return false;
    }
    c->fault.place.entry = NO_ENTRY;
    const char *what = end == c->at ? "left after the names" : "left after the last body";
    return end == c->end || refuse(c, VEXIL_COMPAT_REFUSAL_CONTENTS, end, (struct found){what, BYTES, c->end - end});
}

static bool read_bodies(struct cursor *c, const struct head *head)
{
    c->early = VEXIL_COMPAT_REFUSAL_BODY;
    for (size_t id = 0; id < head->entries; id++) {
        struct body body = body_of(c->image, id);
        if (is_empty(body))
            continue;
        c->at = body.offset;
        c->end = body.offset + body.length;
        c->fault.place = (struct place){.entry = (int)id, .kind = NO_KIND};
        if (!read_body(c))
            return false;
    }
    return true;
}

struct fault find_fault(const uint8_t *image, size_t length)
{
    struct cursor c = {image, 0, length, 0, VEXIL_COMPAT_REFUSAL_SHORT_HEAD, {.place = {.entry = NO_ENTRY, .kind = NO_KIND}}};
    struct head head = {0, 0, 0};
    if (length > VEXIL_COMPAT_IMAGE_BYTES)
        refuse(&c, VEXIL_COMPAT_REFUSAL_LONG, 0, (struct found){"image", BYTES, length});
    else if (read_front(&c, &head) && judge_contents(&c, &head))
        read_bodies(&c, &head);
    return c.fault;
}

size_t count_entries(const uint8_t *image)
{
    return number_at(image + 2, 2);
}

bool find_entry(const uint8_t *image, size_t id, struct place *place)
{
    struct body body = body_of(image, id);
    if (is_empty(body))
        return false;
    const uint8_t *start = image + body.offset;
    *place = (struct place){.entry = (int)id, .kind = start[0], .at = body.offset};
    if (place->kind != IMPL) {
        place->name = start + 2;
        place->name_length = start[1];
    }
    return true;
}

void print_place(FILE *out, const struct place *place)
{
    static const char *const kinds[] = {"message", "enum", "flags", "union", "newtype", "config", "generic_alias", "trait", "impl"};
    if (place->entry != NO_ENTRY)
        fprintf(out, "entry %d, ", place->entry);
    if (place->kind != NO_KIND)
        fputs(kinds[place->kind], out);
    if (place->name != NULL)
        fprintf(out, " '%.*s'", (int)place->name_length, (const char *)place->name);
    if (place->kind != NO_KIND)
        fputs(", ", out);
    fprintf(out, "at byte %zu", place->at);
}

static void print_found(FILE *out, const struct found *found)
{
    uint64_t number = found->number;
    const char *bytes = number == 1 ? "byte" : "bytes";
    fputs(found->what, out);
    switch (found->measure) {
    case VALUE:
        fprintf(out, " %" PRIu64, number);
        break;
    case BYTE_VALUE:
        fprintf(out, ", byte value %" PRIu64, number);
        break;
    case OFFSET:
        fprintf(out, ", its offset is %" PRIu64, number);
        break;
    case BYTES:
        fprintf(out, ", %" PRIu64 " %s", number, bytes);
        break;
    case BYTES_MISSING:
        fprintf(out, ", %" PRIu64 " %s missing", number, bytes);
        break;
    }
}

void print_fault(FILE *out, const struct fault *fault)
{
    /* A longer file is not read to its end. */
    if (fault->number == VEXIL_COMPAT_REFUSAL_LONG) {
        fprintf(out, "over %d bytes", VEXIL_COMPAT_IMAGE_BYTES);
        return;
    }
    print_place(out, &fault->place);
    fputs(": ", out);
    print_found(out, &fault->found);
}

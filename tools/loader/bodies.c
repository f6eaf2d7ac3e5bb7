/* Bodies of declarations, and the fields and types in them. */
#include "cursor.h"
#include "vexil_compat.h"

enum { MOST_NODES = 32, MOST_DELTAS = 8 };
enum { MESSAGE, ENUM, FLAGS, UNION, NEWTYPE };
enum { DELTA = 3 };
/* The tags that are followed by more than one inner type alone. */
enum { PRIMITIVE = 0, SUB_BYTE = 1, SEMANTIC = 2, NAMED = 3, FIXED_ARRAY = 6, MAP = 8, RESULT = 9, BITS = 16 };

/* What the formats hold. */
static bool has_widths(const struct cursor *c)
{
    return c->format >= 2;
}

static bool has_tombstones(const struct cursor *c)
{
    return c->format >= 3;
}

static bool read_encoding(struct cursor *c)
{
    uint64_t code;
    for (int deltas = 0;; deltas++) {
        if (!read_code(c, deltas == 0 ? "encoding" : "inner encoding", 0, DELTA, &code))
            return false;
        if (code != DELTA)
            return true;
        if (deltas == MOST_DELTAS)
            return refuse(c, VEXIL_COMPAT_REFUSAL_DEEP, c->at - 1, (struct found){"delta", VALUE, MOST_DELTAS + 1});
    }
}

static bool read_inline_bits(struct cursor *c)
{
    uint64_t count;
    if (!read_number(c, 1, "inline bit count", &count))
        return false;
    while (count-- > 0) {
        if (!read_name(c, "inline bit name"))
            return false;
    }
    return true;
}

/* What follows a tag before its inner types. */
static bool read_label(struct cursor *c, uint64_t tag)
{
    uint64_t value;
    switch (tag) {
    case PRIMITIVE:
        return read_code(c, "primitive", 0, 13, &value);
    case SUB_BYTE:
        return read_code(c, "signed", 0, 1, &value) && read_code(c, "bits", 1, 64, &value);
    case SEMANTIC:
        return read_code(c, "semantic", 0, 5, &value);
    case NAMED:
        return read_number(c, 4, "type id", &value);
    case FIXED_ARRAY:
        return read_number(c, 8, "size", &value);
    case BITS:
        return read_inline_bits(c);
    default:
        return true;
    }
}

static int inner_types(uint64_t tag)
{
    if (tag <= NAMED || tag == BITS)
        return 0;
    return tag == MAP || tag == RESULT ? 2 : 1;
}

/* `node` is this node's place on its path from the root, from 1 on. */
static bool read_type(struct cursor *c, int node)
{
    uint64_t tag;
    if (!read_code(c, "tag", 0, BITS, &tag) || !read_label(c, tag))
        return false;
    for (int i = 0; i < inner_types(tag); i++) {
        if (node == MOST_NODES)
            return refuse(c, VEXIL_COMPAT_REFUSAL_DEEP, c->at, (struct found){"node under tag", VALUE, tag});
        if (!read_type(c, node + 1))
            return false;
    }
    return true;
}

static bool read_field(struct cursor *c)
{
    uint64_t value, limited;
    return read_number(c, 4, "field ordinal", &value) && read_name(c, "field name") && read_code(c, "field marks", 0, 3, &value)
        && read_encoding(c) && read_code(c, "limit mark", 0, 1, &limited) && (limited == 0 || read_number(c, 8, "limit", &value))
        && read_type(c, 1);
}

static bool read_list(struct cursor *c, const char *what, bool (*item)(struct cursor *))
{
    uint64_t count;
    if (!read_number(c, 2, what, &count))
        return false;
    while (count-- > 0) {
        if (!item(c))
            return false;
    }
    return true;
}

static bool read_item(struct cursor *c, const char *name)
{
    uint64_t ordinal;
    return read_number(c, 4, "item ordinal", &ordinal) && read_name(c, name);
}

static bool read_enum_variant(struct cursor *c)
{
    return read_item(c, "enum variant name");
}

static bool read_bit(struct cursor *c)
{
    return read_item(c, "bit name");
}

static bool read_tombstone(struct cursor *c)
{
    uint64_t number;
    return read_number(c, 4, "tombstone", &number);
}

static bool read_tombstones(struct cursor *c)
{
    return !has_tombstones(c) || read_list(c, "tombstone count", read_tombstone);
}

static bool read_union_variant(struct cursor *c)
{
    uint64_t ordinal;
    return read_number(c, 4, "variant ordinal", &ordinal) && read_name(c, "union variant name")
        && read_list(c, "variant's field count", read_field) && read_tombstones(c);
}

static bool read_declaration_name(struct cursor *c)
{
    size_t start = c->at + 1;
    if (!read_name(c, "declaration name"))
        return false;
    c->fault.place.name = c->image + start;
    c->fault.place.name_length = c->at - start;
    return true;
}

static bool read_wire_bits(struct cursor *c)
{
    uint64_t bits;
    return !has_widths(c) || read_number(c, 1, "width", &bits);
}

static bool read_wire_bytes(struct cursor *c)
{
    uint64_t bytes;
    if (!has_widths(c))
        return true;
    if (!read_number(c, 1, "width", &bytes))
        return false;
    return bytes == 1 || bytes == 2 || bytes == 4 || bytes == 8
        || refuse(c, VEXIL_COMPAT_REFUSAL_CODE, c->at - 1, (struct found){"width", VALUE, bytes});
}

/* What follows kind and name. */
static bool read_rest(struct cursor *c)
{
    uint64_t marks;
    switch (c->fault.place.kind) {
    case MESSAGE:
        return read_code(c, "marks", 0, 3, &marks) && read_list(c, "count", read_field) && read_tombstones(c);
    case ENUM:
        return read_code(c, "marks", 0, 3, &marks) && read_wire_bits(c) && read_list(c, "count", read_enum_variant) && read_tombstones(c);
    case FLAGS:
        return read_wire_bytes(c) && read_list(c, "count", read_bit) && read_tombstones(c);
    case UNION:
        return read_list(c, "count", read_union_variant) && read_tombstones(c);
    case NEWTYPE:
        return read_type(c, 1);
    default:
        return true;
    }
}

bool read_body(struct cursor *c)
{
    uint64_t kind;
    if (!read_number(c, 1, "kind", &kind))
        return false;
    if (kind > IMPL)
        return refuse(c, VEXIL_COMPAT_REFUSAL_KIND, c->at - 1, (struct found){"kind", VALUE, kind});
    c->fault.place.kind = (int)kind;
    if ((kind != IMPL && !read_declaration_name(c)) || !read_rest(c))
        return false;
    return c->at == c->end || refuse(c, VEXIL_COMPAT_REFUSAL_BODY, c->at, (struct found){"left over", BYTES, c->end - c->at});
}

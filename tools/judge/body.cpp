// One body: the nine kinds, their fields, variants, bits and tombstones.
#include "cursor.hpp"

namespace judge {

namespace {

const uint8_t MOST_DELTAS = 8;
const uint8_t ALL_MARKS = DEPRECATED | NON_EXHAUSTIVE;

bool has_widths(const Image &image) { return image.format >= 2; }
bool has_tombstones(const Image &image) { return image.format >= 3; }

// Only the innermost encoding can be other than delta.
bool read_encoding(Cursor &in, Encoding &encoding) {
    const uint8_t delta = 3;
    encoding = Encoding{};
    for (;;) {
        uint8_t code = 0;
        if (!in.code(delta, code)) return false;
        if (code != delta) {
            encoding.innermost = code;
            return true;
        }
        if (encoding.deltas == MOST_DELTAS) return in.fail(DEEP);
        ++encoding.deltas;
    }
}

bool read_field(Cursor &in, Image &image, Field &field) {
    uint8_t limited = 0;
    if (!in.u32(field.number) || !in.name(field.name)) return false;
    if (!in.code(ALL_MARKS, field.marks)) return false;
    if (!read_encoding(in, field.encoding)) return false;
    if (!in.code(1, limited)) return false;
    field.limited = limited == 1;
    if (field.limited && !in.u64(field.limit)) return false;
    return read_type(in, image, field.type);
}

bool read_fields(Cursor &in, Image &image, std::vector<Field> &fields) {
    uint16_t count = 0;
    if (!in.u16(count)) return false;
    for (unsigned i = 0; i < count; ++i) {
        fields.emplace_back();
        if (!read_field(in, image, fields.back())) return false;
    }
    return true;
}

bool read_items(Cursor &in, std::vector<Item> &items) {
    uint16_t count = 0;
    if (!in.u16(count)) return false;
    for (unsigned i = 0; i < count; ++i) {
        items.emplace_back();
        if (!in.u32(items.back().number) || !in.name(items.back().name)) return false;
    }
    return true;
}

// Format 3 closes with the numbers struck off; the others have none.
bool read_struck(Cursor &in, const Image &image, std::vector<uint32_t> &struck) {
    if (!has_tombstones(image)) return true;
    uint16_t count = 0;
    if (!in.u16(count)) return false;
    for (unsigned i = 0; i < count; ++i) {
        struck.emplace_back();
        if (!in.u32(struck.back())) return false;
    }
    return true;
}

bool read_message(Cursor &in, Image &image, Entry &entry) {
    if (!in.name(entry.name) || !in.code(ALL_MARKS, entry.marks)) return false;
    if (!read_fields(in, image, entry.fields)) return false;
    return read_struck(in, image, entry.struck);
}

// Any number of wire bits is allowed.
bool read_enum(Cursor &in, Image &image, Entry &entry) {
    if (!in.name(entry.name) || !in.code(ALL_MARKS, entry.marks)) return false;
    if (has_widths(image) && !in.u8(entry.width)) return false;
    if (!read_items(in, entry.items)) return false;
    return read_struck(in, image, entry.struck);
}

bool read_wire_bytes(Cursor &in, uint8_t &width) {
    if (!in.u8(width)) return false;
    bool known = width == 1 || width == 2 || width == 4 || width == 8;
    return known || in.fail(CODE);
}

bool read_flags(Cursor &in, Image &image, Entry &entry) {
    if (!in.name(entry.name)) return false;
    if (has_widths(image) && !read_wire_bytes(in, entry.width)) return false;
    if (!read_items(in, entry.items)) return false;
    return read_struck(in, image, entry.struck);
}

bool read_variant(Cursor &in, Image &image, Variant &variant) {
    if (!in.u32(variant.number) || !in.name(variant.name)) return false;
    if (!read_fields(in, image, variant.fields)) return false;
    return read_struck(in, image, variant.struck);
}

bool read_union(Cursor &in, Image &image, Entry &entry) {
    uint16_t count = 0;
    if (!in.name(entry.name) || !in.u16(count)) return false;
    for (unsigned i = 0; i < count; ++i) {
        entry.variants.emplace_back();
        if (!read_variant(in, image, entry.variants.back())) return false;
    }
    return read_struck(in, image, entry.struck);
}

bool read_newtype(Cursor &in, Image &image, Entry &entry) {
    return in.name(entry.name) && read_type(in, image, entry.type);
}

bool read_by_kind(Cursor &in, Image &image, Entry &entry) {
    switch (entry.kind) {
        case MESSAGE: return read_message(in, image, entry);
        case ENUM: return read_enum(in, image, entry);
        case FLAGS: return read_flags(in, image, entry);
        case UNION: return read_union(in, image, entry);
        case NEWTYPE: return read_newtype(in, image, entry);
        case CONFIG:
        case ALIAS:
        case TRAIT: return in.name(entry.name);
        case IMPL: return true;
        default: return in.fail(KIND);
    }
}

}  // namespace

bool read_body(Cursor &in, Image &image, Entry &entry) {
    entry.present = true;
    if (!in.u8(entry.kind) || !read_by_kind(in, image, entry)) return false;
    return in.left() == 0 || in.fail(BODY);
}

}  // namespace judge

#include "write.hpp"

namespace judge {

namespace {

void put(std::string &out, size_t width, uint64_t value) {
    for (size_t i = 0; i < width; ++i) out += char(uint8_t(value >> (8 * i)));
}

void put_name(std::string &out, Name name) {
    put(out, 1, name.size());
    out += name;
}

void put_bits(std::string &out, const Image &image, const Node &node) {
    put(out, 1, node.name_count);
    for (uint32_t i = 0; i < node.name_count; ++i) {
        put_name(out, image.bit_names[node.first_name + i]);
    }
}

void put_node(std::string &out, const Image &image, const Node &node) {
    put(out, 1, node.tag);
    switch (node.tag) {
        case PRIMITIVE:
        case SEMANTIC: put(out, 1, node.code); break;
        case SUB_BYTE:
            put(out, 1, node.code);
            put(out, 1, node.bits);
            break;
        case NAMED: put(out, 4, node.number); break;
        case FIXED_ARRAY: put(out, 8, node.number); break;
        case BITS: put_bits(out, image, node); break;
        default: break;
    }
}

void put_type(std::string &out, const Image &image, Type type) {
    for (uint32_t i = type.begin; i < type.end; ++i) put_node(out, image, image.nodes[i]);
}

void put_field(std::string &out, const Image &image, const Field &field) {
    put(out, 4, field.number);
    put_name(out, field.name);
    put(out, 1, field.marks);
    for (int i = 0; i < field.encoding.deltas; ++i) put(out, 1, 3);
    put(out, 1, field.encoding.innermost);
    put(out, 1, field.limited);
    if (field.limited) put(out, 8, field.limit);
    put_type(out, image, field.type);
}

void put_fields(std::string &out, const Image &image, const std::vector<Field> &fields) {
    put(out, 2, fields.size());
    for (const Field &field : fields) put_field(out, image, field);
}

void put_items(std::string &out, const std::vector<Item> &items) {
    put(out, 2, items.size());
    for (const Item &item : items) {
        put(out, 4, item.number);
        put_name(out, item.name);
    }
}

void put_struck(std::string &out, const Image &image, const std::vector<uint32_t> &struck) {
    if (image.format < 3) return;
    put(out, 2, struck.size());
    for (uint32_t number : struck) put(out, 4, number);
}

void put_variants(std::string &out, const Image &image, const std::vector<Variant> &variants) {
    put(out, 2, variants.size());
    for (const Variant &variant : variants) {
        put(out, 4, variant.number);
        put_name(out, variant.name);
        put_fields(out, image, variant.fields);
        put_struck(out, image, variant.struck);
    }
}

}  // namespace

std::string write_body(const Image &image, const Entry &entry) {
    std::string out;
    uint8_t kind = entry.kind;
    put(out, 1, kind);
    if (kind != IMPL) put_name(out, entry.name);
    if (kind == MESSAGE || kind == ENUM) put(out, 1, entry.marks);
    if ((kind == ENUM || kind == FLAGS) && image.format >= 2) put(out, 1, entry.width);
    if (kind == MESSAGE) put_fields(out, image, entry.fields);
    if (kind == ENUM || kind == FLAGS) put_items(out, entry.items);
    if (kind == UNION) put_variants(out, image, entry.variants);
    if (kind == NEWTYPE) put_type(out, image, entry.type);
    if (kind <= UNION) put_struck(out, image, entry.struck);
    return out;
}

std::string write_image(const Image &image) {
    std::vector<std::string> bodies;
    for (const Entry &entry : image.entries) {
        bodies.push_back(entry.present ? write_body(image, entry) : std::string());
    }
    std::string lists;
    for (uint32_t id : image.ids) put(lists, 4, id);
    for (Name segment : image.segments) put_name(lists, segment);

    std::string out;
    put(out, 2, image.format);
    put(out, 2, image.entries.size());
    put(out, 2, image.ids.size());
    put(out, 2, image.segments.size());
    size_t next = out.size() + 4 * bodies.size() + lists.size();
    for (const std::string &body : bodies) {
        put(out, 2, body.empty() ? 0 : next);
        put(out, 2, body.size());
        next += body.size();
    }
    out += lists;
    for (const std::string &body : bodies) out += body;
    return out;
}

}  // namespace judge

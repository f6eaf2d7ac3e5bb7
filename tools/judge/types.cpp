// Types: read, compared with three answers, and shown.
#include "types.hpp"

#include <algorithm>

#include "cursor.hpp"

namespace judge {

int inner_types(uint8_t tag) {
    if (tag == MAP || tag == RESULT) return 2;
    bool one = (tag >= OPTIONAL && tag <= SET) || is_vector(tag);
    return one ? 1 : 0;
}

// ---- reading ----

namespace {

const int MOST_NODES_ON_A_PATH = 32;

bool read_sub_byte(Cursor &in, Node &node) {
    if (!in.code(1, node.code) || !in.u8(node.bits)) return false;
    return (node.bits >= 1 && node.bits <= 64) || in.fail(CODE);
}

bool read_id(Cursor &in, Node &node) {
    uint32_t id = 0;
    if (!in.u32(id)) return false;
    node.number = id;
    return true;
}

bool read_bit_names(Cursor &in, Image &image, Node &node) {
    uint8_t count = 0;
    if (!in.u8(count)) return false;
    node.first_name = uint32_t(image.bit_names.size());
    node.name_count = count;
    for (unsigned i = 0; i < count; ++i) {
        image.bit_names.emplace_back();
        if (!in.name(image.bit_names.back())) return false;
    }
    return true;
}

// What stands between a tag and the inner types.
bool read_own_part(Cursor &in, Image &image, Node &node) {
    switch (node.tag) {
        case PRIMITIVE: return in.code(13, node.code);
        case SUB_BYTE: return read_sub_byte(in, node);
        case SEMANTIC: return in.code(5, node.code);
        case NAMED: return read_id(in, node);
        case FIXED_ARRAY: return in.u64(node.number);
        case BITS: return read_bit_names(in, image, node);
        default: return true;
    }
}

// The depth of the root is 1; a node too deep is refused before its tag is read.
bool read_nodes(Cursor &in, Image &image, int depth) {
    if (depth > MOST_NODES_ON_A_PATH) return in.fail(DEEP);
    Node node;
    if (!in.code(BITS, node.tag) || !read_own_part(in, image, node)) return false;
    image.nodes.push_back(node);
    for (int i = 0; i < inner_types(node.tag); ++i) {
        if (!read_nodes(in, image, depth + 1)) return false;
    }
    return true;
}

}  // namespace

bool read_type(Cursor &in, Image &image, Type &type) {
    type.begin = uint32_t(image.nodes.size());
    if (!read_nodes(in, image, 1)) return false;
    type.end = uint32_t(image.nodes.size());
    return true;
}

// ---- comparing ----

namespace {

// Each name from its own registry; two unresolvable ids are equal.
bool same_reference(const Image &a, uint64_t a_id, const Image &b, uint64_t b_id) {
    const Entry *a_entry = a.resolve(a_id);
    const Entry *b_entry = b.resolve(b_id);
    if (!a_entry || !b_entry) return !a_entry && !b_entry;
    return a_entry->name == b_entry->name;
}

bool same_bit_names(const Image &a, const Node &x, const Image &b, const Node &y) {
    if (x.name_count != y.name_count) return false;
    auto first = a.bit_names.begin() + x.first_name;
    return std::equal(first, first + x.name_count, b.bit_names.begin() + y.first_name);
}

bool same_node(const Image &a, const Node &x, const Image &b, const Node &y) {
    if (x.tag != y.tag) return false;
    switch (x.tag) {
        case PRIMITIVE:
        case SEMANTIC: return x.code == y.code;
        case SUB_BYTE: return x.code == y.code && x.bits == y.bits;
        case NAMED: return same_reference(a, x.number, b, y.number);
        case FIXED_ARRAY: return x.number == y.number;
        case BITS: return same_bit_names(a, x, b, y);
        default: return true;
    }
}

}  // namespace

Likeness compare_types(const Image &old_image, Type old_type, const Image &new_image,
                       Type new_type) {
    uint32_t count = old_type.end - old_type.begin;
    if (new_type.end - new_type.begin != count) return Likeness::DIFFERENT;
    bool vectors = false;
    for (uint32_t i = 0; i < count; ++i) {
        const Node &x = old_image.nodes[old_type.begin + i];
        const Node &y = new_image.nodes[new_type.begin + i];
        if (!same_node(old_image, x, new_image, y)) return Likeness::DIFFERENT;
        if (is_vector(x.tag)) vectors = true;
    }
    return vectors ? Likeness::ALIKE : Likeness::EQUAL;
}

// ---- showing ----

namespace {

const char *const PRIMITIVES[] = {"bool", "u8",  "u16", "u32", "u64",     "i8",      "i16",
                                  "i32",  "i64", "f32", "f64", "fixed32", "fixed64", "void"};
const char *const SEMANTICS[] = {"string", "bytes", "rgb", "uuid", "timestamp", "hash"};

// The word before `<`; empty for a tag without inner types.
const char *wrapper(uint8_t tag) {
    static const char *const words[] = {"",    "",    "",       "",     "optional", "array",
                                        "array", "set", "map",  "result", "vec2",   "vec3",
                                        "vec4",  "quat", "mat3", "mat4", ""};
    return words[tag];
}

void show_reference(const Image &image, uint64_t id, std::string &text) {
    const Entry *entry = image.resolve(id);
    text += entry ? entry->name : Name("<unknown>");
}

void show_bits(const Image &image, const Node &node, std::string &text) {
    text += "bits { ";
    for (uint32_t i = 0; i < node.name_count; ++i) {
        if (i > 0) text += ", ";
        text += image.bit_names[node.first_name + i];
    }
    text += " }";
}

void show_leaf(const Image &image, const Node &node, std::string &text) {
    switch (node.tag) {
        case PRIMITIVE: text += PRIMITIVES[node.code]; break;
        case SUB_BYTE:
            text += node.code == 1 ? 'i' : 'u';
            text += std::to_string(node.bits);
            break;
        case SEMANTIC: text += SEMANTICS[node.code]; break;
        case NAMED: show_reference(image, node.number, text); break;
        default: show_bits(image, node, text); break;
    }
}

// Shows the type that starts at a node; gives the place after it.
uint32_t show_from(const Image &image, uint32_t at, std::string &text) {
    const Node &node = image.nodes[at++];
    int inner = inner_types(node.tag);
    if (inner == 0) {
        show_leaf(image, node, text);
        return at;
    }
    text += wrapper(node.tag);
    text += '<';
    for (int i = 0; i < inner; ++i) {
        if (i > 0) text += ", ";
        at = show_from(image, at, text);
    }
    if (node.tag == FIXED_ARRAY) text += ", " + std::to_string(node.number);
    text += '>';
    return at;
}

}  // namespace

std::string show_type(const Image &image, Type type) {
    std::string text;
    show_from(image, type.begin, text);
    return text;
}

}  // namespace judge

// What an image holds once it is read, and the reader (01, R-6, R-10).
#pragma once

#include <cstddef>
#include <cstdint>
#include <string>
#include <string_view>
#include <vector>

namespace judge {

using Name = std::string_view;

enum Refusal {
    ACCEPTED = 0,
    LONG = 1,
    SHORT_HEAD = 2,
    FORMAT = 3,
    CROWDED = 4,
    CONTENTS = 5,
    KIND = 6,
    NAME = 7,
    BODY = 8,
    CODE = 9,
    DEEP = 10,
    ALIAS_PAIR = 11,
    FULL = 12,
    MIXED = 16
};

enum Kind : uint8_t { MESSAGE, ENUM, FLAGS, UNION, NEWTYPE, CONFIG, ALIAS, TRAIT, IMPL };

enum Tag : uint8_t {
    PRIMITIVE,
    SUB_BYTE,
    SEMANTIC,
    NAMED,
    OPTIONAL,
    ARRAY,
    FIXED_ARRAY,
    SET,
    MAP,
    RESULT,
    VEC2,
    VEC3,
    VEC4,
    QUAT,
    MAT3,
    MAT4,
    BITS
};

enum Mark : uint8_t { DEPRECATED = 1, NON_EXHAUSTIVE = 2 };

// One node of a type. Its inner types follow it in Image::nodes.
struct Node {
    uint8_t tag = 0;
    uint8_t code = 0;       // primitive, semantic; 1 for a signed sub-byte
    uint8_t bits = 0;       // sub-byte
    uint64_t number = 0;    // id of a named node, size of a fixed array
    uint32_t first_name = 0;  // bits: names in Image::bit_names
    uint32_t name_count = 0;
};

// A type is a run of nodes, each before its inner types. The tag tells how many
// inner types there are, so two trees are alike if their runs are.
struct Type {
    uint32_t begin = 0;
    uint32_t end = 0;
};

struct Encoding {
    uint8_t deltas = 0;
    uint8_t innermost = 0;
};

struct Field {
    uint32_t number = 0;
    Name name;
    uint8_t marks = 0;
    Encoding encoding;
    bool limited = false;
    uint64_t limit = 0;
    Type type;
};

// A variant of an enum or a bit of flags.
struct Item {
    uint32_t number = 0;
    Name name;
};

struct Variant {
    uint32_t number = 0;
    Name name;
    std::vector<Field> fields;
    std::vector<uint32_t> struck;
};

// An entry of the registry; an empty one is not present.
struct Entry {
    bool present = false;
    uint8_t kind = 0;
    Name name;
    uint8_t marks = 0;
    uint8_t width = 0;
    Type type;                      // newtype
    std::vector<Field> fields;      // message
    std::vector<Item> items;        // enum, flags
    std::vector<Variant> variants;  // union
    std::vector<uint32_t> struck;   // tombstones
};

// Names are views of the bytes that were read.
struct Image {
    unsigned format = 0;
    std::vector<Name> segments;
    std::vector<uint32_t> ids;
    std::vector<Entry> entries;
    std::vector<Node> nodes;
    std::vector<Name> bit_names;

    // The entry of an id; null if the id is unresolvable.
    const Entry *resolve(uint64_t id) const {
        if (id >= entries.size() || !entries[id].present) return nullptr;
        return &entries[id];
    }
};

// Reads an image into an empty Image; gives the refusal number, 0 if accepted.
int read_image(const uint8_t *bytes, size_t len, Image &image);

// How many inner types a node of this tag has.
int inner_types(uint8_t tag);

inline bool is_vector(uint8_t tag) { return tag >= VEC2 && tag <= MAT4; }

}  // namespace judge

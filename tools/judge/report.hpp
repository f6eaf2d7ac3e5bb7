// The list of changes: its text, its counts and its bump (01, Report).
#pragma once

#include <array>
#include <initializer_list>

#include "image.hpp"

namespace judge {

// ChangeKind in the order of the counts; the last three are R-6's and R-10's.
enum Change {
    FIELD_ADDED,
    FIELD_REMOVED,
    FIELD_TYPE_CHANGED,
    FIELD_ORDINAL_CHANGED,
    FIELD_RENAMED,
    FIELD_DEPRECATED,
    FIELD_ENCODING_CHANGED,
    VARIANT_ADDED,
    VARIANT_REMOVED,
    VARIANT_ORDINAL_CHANGED,
    DECLARATION_ADDED,
    DECLARATION_REMOVED,
    DECLARATION_KIND_CHANGED,
    NAMESPACE_CHANGED,
    NON_EXHAUSTIVE_CHANGED,
    FLAGS_BIT_ADDED,
    FLAGS_BIT_REMOVED,
    FLAGS_BIT_ORDINAL_CHANGED,
    WIDTH_CHANGED,
    TOMBSTONE_REUSED,
    TOMBSTONE_DROPPED,
    CHANGE_COUNT
};

enum Bump { PATCH = 0, MINOR = 1, MAJOR = 2 };

struct Report {
    std::string text;
    std::array<uint64_t, CHANGE_COUNT> counts{};
    uint64_t changes = 0;
    Bump bump = PATCH;

    // A change without a field.
    void add(Change kind, Bump level, Name declaration, std::initializer_list<Name> detail);

    // A change of a field, variant or bit.
    void add_field(Change kind, Bump level, Name declaration, Name field,
                   std::initializer_list<Name> detail);

    bool breaking() const { return bump == MAJOR; }

    // The last line.
    void finish();

  private:
    void start_line(Change kind, Bump level, Name declaration);
    void end_line(std::initializer_list<Name> detail);
};

}  // namespace judge

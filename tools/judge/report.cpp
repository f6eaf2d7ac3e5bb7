#include "report.hpp"

#include <algorithm>

namespace judge {

namespace {

const char *const CHANGE_NAMES[CHANGE_COUNT] = {
    "FieldAdded",
    "FieldRemoved",
    "FieldTypeChanged",
    "FieldOrdinalChanged",
    "FieldRenamed",
    "FieldDeprecated",
    "FieldEncodingChanged",
    "VariantAdded",
    "VariantRemoved",
    "VariantOrdinalChanged",
    "DeclarationAdded",
    "DeclarationRemoved",
    "DeclarationKindChanged",
    "NamespaceChanged",
    "NonExhaustiveChanged",
    "FlagsBitAdded",
    "FlagsBitRemoved",
    "FlagsBitOrdinalChanged",
    "WidthChanged",
    "TombstoneReused",
    "TombstoneDropped",
};

const char *const BUMP_NAMES[] = {"Patch", "Minor", "Major"};

}  // namespace

void Report::start_line(Change kind, Bump level, Name declaration) {
    ++changes;
    ++counts[kind];
    bump = std::max(bump, level);
    text += CHANGE_NAMES[kind];
    text += ';';
    text += BUMP_NAMES[level];
    text += ';';
    text += declaration;
    text += ';';
}

void Report::end_line(std::initializer_list<Name> detail) {
    text += ';';
    for (Name part : detail) text += part;
    text += '\n';
}

void Report::add(Change kind, Bump level, Name declaration, std::initializer_list<Name> detail) {
    start_line(kind, level, declaration);
    text += '-';
    end_line(detail);
}

void Report::add_field(Change kind, Bump level, Name declaration, Name field,
                       std::initializer_list<Name> detail) {
    start_line(kind, level, declaration);
    text += '+';
    text += field;
    end_line(detail);
}

void Report::finish() {
    text += breaking() ? "Breaking" : "Compatible";
    text += ';';
    text += BUMP_NAMES[bump];
    text += ';';
    text += std::to_string(changes);
    text += '\n';
}

}  // namespace judge

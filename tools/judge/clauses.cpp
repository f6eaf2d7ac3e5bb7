#include "clauses.hpp"

#include "tombstones.hpp"
#include "types.hpp"

namespace judge {

namespace {

const char *kind_name(uint8_t kind) {
    static const char *const names[] = {"message", "enum",          "flags", "union", "newtype",
                                        "config",  "generic_alias", "trait", "impl"};
    return names[kind];
}

std::string decimal(uint64_t number) { return std::to_string(number); }

// Numbers of the mended verdict's tombstones.
template <class Listed>
void close_with_tombstones(const Comparison &in, Name declaration,
                           const std::vector<uint32_t> &old_struck,
                           const std::vector<uint32_t> &new_struck,
                           const std::vector<const Listed *> &new_items) {
    if (!in.mended) return;
    compare_tombstones(declaration, old_struck, new_struck, used_numbers(new_items), in.report);
}

// ---- 1: the namespace ----

std::string joined(const std::vector<Name> &segments) {
    std::string text;
    for (size_t i = 0; i < segments.size(); ++i) {
        if (i > 0) text += '.';
        text += segments[i];
    }
    return text;
}

void compare_namespaces(const Comparison &in) {
    if (in.old_image.segments == in.new_image.segments) return;
    in.report.add(NAMESPACE_CHANGED, MAJOR, "",
                  {"namespace changed from '", joined(in.old_image.segments), "' to '",
                   joined(in.new_image.segments), "'"});
}

// ---- 2: declarations of one side ----

void compare_declaration_names(const Comparison &in) {
    for (const Entry *gone : in.old_declarations) {
        if (find(in.new_declarations, gone->name)) continue;
        in.report.add(DECLARATION_REMOVED, MAJOR, gone->name,
                      {kind_name(gone->kind), " '", gone->name, "' was removed"});
    }
    for (const Entry *come : in.new_declarations) {
        if (find(in.old_declarations, come->name)) continue;
        in.report.add(DECLARATION_ADDED, MINOR, come->name,
                      {kind_name(come->kind), " '", come->name, "' was added"});
    }
}

// ---- types, as the verdict at hand reads their three answers ----

bool types_differ(const Comparison &in, Type old_type, Type new_type) {
    Likeness answer = compare_types(in.old_image, old_type, in.new_image, new_type);
    if (in.mended) return answer == Likeness::DIFFERENT;
    return answer != Likeness::EQUAL;
}

// ---- 4: field sets ----

std::string show_encoding(const Encoding &encoding) {
    static const char *const words[] = {"default", "varint", "zigzag"};
    std::string text;
    for (int i = 0; i < encoding.deltas; ++i) text += "delta(";
    text += words[encoding.innermost];
    text.append(encoding.deltas, ')');
    return text;
}

bool same_encoding(const Field &a, const Field &b) {
    if (a.encoding.deltas != b.encoding.deltas) return false;
    if (a.encoding.innermost != b.encoding.innermost) return false;
    if (a.limited != b.limited) return false;
    return !a.limited || a.limit == b.limit;
}

bool newly_deprecated(uint8_t old_marks, uint8_t new_marks) {
    return !(old_marks & DEPRECATED) && (new_marks & DEPRECATED);
}

void compare_field(const Comparison &in, Name declaration, const Field &before,
                   const Field &after) {
    Report &report = in.report;
    std::string ordinal = decimal(after.number);
    if (before.name != after.name) {
        report.add_field(FIELD_RENAMED, PATCH, declaration, after.name,
                         {"field @", ordinal, " renamed from '", before.name, "' to '", after.name,
                          "'"});
    }
    if (types_differ(in, before.type, after.type)) {
        report.add_field(FIELD_TYPE_CHANGED, MAJOR, declaration, after.name,
                         {"field '", after.name, "' @", ordinal, " type changed from ",
                          show_type(in.old_image, before.type), " to ",
                          show_type(in.new_image, after.type)});
    }
    if (!same_encoding(before, after)) {
        report.add_field(FIELD_ENCODING_CHANGED, MAJOR, declaration, after.name,
                         {"field '", after.name, "' @", ordinal, " encoding changed from ",
                          show_encoding(before.encoding), " to ", show_encoding(after.encoding)});
    }
    if (newly_deprecated(before.marks, after.marks)) {
        report.add_field(FIELD_DEPRECATED, PATCH, declaration, after.name,
                         {"field '", after.name, "' was marked @deprecated"});
    }
}

using Fields = std::vector<const Field *>;

void compare_field_sets(const Comparison &in, Name declaration, const Fields &old_fields,
                        const Fields &new_fields) {
    for (const Field *gone : old_fields) {
        if (find(new_fields, gone->number)) continue;
        in.report.add_field(
            FIELD_REMOVED, MAJOR, declaration, gone->name,
            {"field '", gone->name, "' @", decimal(gone->number), " was removed"});
    }
    for (const Field *come : new_fields) {
        if (find(old_fields, come->number)) continue;
        in.report.add_field(FIELD_ADDED, MAJOR, declaration, come->name,
                            {"field '", come->name, "' @", decimal(come->number), " was added"});
    }
    for (const Field *before : old_fields) {
        const Field *after = find(new_fields, before->number);
        if (after) compare_field(in, declaration, *before, *after);
    }
}

void compare_messages(const Comparison &in, Name name, const Entry &before, const Entry &after) {
    Fields new_fields = survivors(after.fields);
    compare_field_sets(in, name, survivors(before.fields), new_fields);
    if (newly_deprecated(before.marks, after.marks)) {
        in.report.add(FIELD_DEPRECATED, PATCH, name, {"declaration was marked @deprecated"});
    }
    close_with_tombstones(in, name, before.struck, after.struck, new_fields);
}

// ---- 5 to 7: variants and bits ----

// Items that one side alone has: all removed, then all added.
template <class Listed>
struct Lists {
    std::vector<const Listed *> before;
    std::vector<const Listed *> after;
};

struct Words {
    Name what;  // "variant" or "bit"
    Change removed;
    Change added;
    Bump added_level;
};

template <class Listed>
void compare_lists(const Comparison &in, Name name, const Lists<Listed> &lists,
                   const Words &words) {
    for (const Listed *gone : lists.before) {
        if (find(lists.after, gone->number)) continue;
        in.report.add_field(
            words.removed, MAJOR, name, gone->name,
            {words.what, " '", gone->name, "' @", decimal(gone->number), " was removed"});
    }
    for (const Listed *come : lists.after) {
        if (find(lists.before, come->number)) continue;
        in.report.add_field(
            words.added, words.added_level, name, come->name,
            {words.what, " '", come->name, "' @", decimal(come->number), " was added"});
    }
}

// R-6, first in its declaration.
void compare_widths(const Comparison &in, Name name, const Entry &before, const Entry &after) {
    if (!in.mended || before.width == after.width) return;
    in.report.add(
        WIDTH_CHANGED, MAJOR, name,
        {"width changed from ", decimal(before.width), " to ", decimal(after.width)});
}

void compare_enums(const Comparison &in, Name name, const Entry &before, const Entry &after) {
    compare_widths(in, name, before, after);
    bool was_open = before.marks & NON_EXHAUSTIVE;
    bool is_open = after.marks & NON_EXHAUSTIVE;
    if (was_open != is_open) {
        in.report.add(NON_EXHAUSTIVE_CHANGED, MAJOR, name,
                      {"@non_exhaustive changed from ", was_open ? "true" : "false", " to ",
                       is_open ? "true" : "false"});
    }
    Lists<Item> variants{survivors(before.items), survivors(after.items)};
    Words words{"variant", VARIANT_REMOVED, VARIANT_ADDED, is_open ? MINOR : MAJOR};
    compare_lists(in, name, variants, words);
    close_with_tombstones(in, name, before.struck, after.struck, variants.after);
}

void compare_flags(const Comparison &in, Name name, const Entry &before, const Entry &after) {
    compare_widths(in, name, before, after);
    Lists<Item> bits{survivors(before.items), survivors(after.items)};
    compare_lists(in, name, bits, Words{"bit", FLAGS_BIT_REMOVED, FLAGS_BIT_ADDED, MINOR});
    close_with_tombstones(in, name, before.struck, after.struck, bits.after);
}

void compare_variants(const Comparison &in, Name name, const Variant &before,
                      const Variant &after) {
    std::string declaration(name);
    declaration += "::";
    declaration += before.name;
    Fields new_fields = survivors(after.fields);
    compare_field_sets(in, declaration, survivors(before.fields), new_fields);
    close_with_tombstones(in, declaration, before.struck, after.struck, new_fields);
}

void compare_unions(const Comparison &in, Name name, const Entry &before, const Entry &after) {
    Lists<Variant> variants{survivors(before.variants), survivors(after.variants)};
    compare_lists(in, name, variants, Words{"variant", VARIANT_REMOVED, VARIANT_ADDED, MINOR});
    for (const Variant *old_variant : variants.before) {
        const Variant *new_variant = find(variants.after, old_variant->number);
        if (new_variant) compare_variants(in, name, *old_variant, *new_variant);
    }
    close_with_tombstones(in, name, before.struck, after.struck, variants.after);
}

// ---- 8: newtypes ----

void compare_newtypes(const Comparison &in, Name name, const Entry &before, const Entry &after) {
    if (!types_differ(in, before.type, after.type)) return;
    in.report.add(FIELD_TYPE_CHANGED, MAJOR, name,
                  {"newtype '", name, "' inner type changed from ",
                   show_type(in.old_image, before.type), " to ",
                   show_type(in.new_image, after.type)});
}

// ---- 3: a shared name ----

void compare_shared(const Comparison &in, const Entry &before, const Entry &after) {
    Name name = before.name;
    if (before.kind != after.kind) {
        in.report.add(DECLARATION_KIND_CHANGED, MAJOR, name,
                      {"'", name, "' changed from ", kind_name(before.kind), " to ",
                       kind_name(after.kind)});
        return;
    }
    switch (before.kind) {
        case MESSAGE: compare_messages(in, name, before, after); break;
        case ENUM: compare_enums(in, name, before, after); break;
        case FLAGS: compare_flags(in, name, before, after); break;
        case UNION: compare_unions(in, name, before, after); break;
        case NEWTYPE: compare_newtypes(in, name, before, after); break;
        default: break;  // config, trait and impl are silent
    }
}

}  // namespace

bool alias_pair(const Declarations &old_declarations, const Declarations &new_declarations) {
    for (const Entry *before : old_declarations) {
        if (before->kind != ALIAS) continue;
        const Entry *after = find(new_declarations, before->name);
        if (after && after->kind == ALIAS) return true;
    }
    return false;
}

void compare(const Comparison &in) {
    compare_namespaces(in);
    compare_declaration_names(in);
    for (const Entry *before : in.old_declarations) {
        const Entry *after = find(in.new_declarations, before->name);
        if (after) compare_shared(in, *before, *after);
    }
}

}  // namespace judge

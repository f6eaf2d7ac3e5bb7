// The eight clauses of 01, the edges, and every change kind's text.
#include "maker.hpp"

namespace test {

namespace {

const Maker one{1};
const int FIRST = JUDGE_FIRST;
const std::string SAME = "Compatible;Patch;0";
const std::string BREAKS = "Breaking;Major;1";

// Two newtypes `T` of these types; names 1 to 3 resolve: Leaf, an impl, an
// empty name. 4 is an empty entry.
Bytes typed(const Bytes &type) {
    return one.image({"n"},
                     {one.newtype("T", type), one.trait("Leaf"), one.impl(), one.trait(""), ""},
                     {0});
}

void same_types(const std::string &label, const Bytes &a, const Bytes &b) {
    expect_report(label, FIRST, typed(a), typed(b), "", SAME);
}

void different_types(const std::string &label, const Bytes &a, const Bytes &b,
                     const std::string &shown) {
    expect_report(label, FIRST, typed(a), typed(b),
                  "FieldTypeChanged;Major;T;-;newtype 'T' inner type changed from " + shown + "\n",
                  BREAKS);
}

void shown_types() {
    const char *prims[] = {"bool", "u8",  "u16", "u32", "u64",     "i8",      "i16",
                           "i32",  "i64", "f32", "f64", "fixed32", "fixed64", "void"};
    const char *sems[] = {"string", "bytes", "rgb", "uuid", "timestamp", "hash"};
    const char *vectors[] = {"vec2", "vec3", "vec4", "quat", "mat3", "mat4"};
    for (unsigned i = 0; i < 14; ++i) {
        different_types(prims[i], prim(i), sub(1, 3), std::string(prims[i]) + " to i3");
    }
    for (unsigned i = 0; i < 6; ++i) {
        different_types(sems[i], sem(i), sub(0, 64), std::string(sems[i]) + " to u64");
        std::string same = std::string(vectors[i]) + "<u8>";
        different_types(vectors[i], wrap(10 + i, prim(U8)), wrap(10 + i, prim(U8)),
                        same + " to " + same);
    }
    different_types("named", named(1), named(9), "Leaf to <unknown>");
    different_types("empty name", optional(named(2)), set(named(4)),
                    "optional<> to set<<unknown>>");
    different_types("containers", map(prim(U8), array(prim(U16))), result(prim(0), sem(0)),
                    "map<u8, array<u16>> to result<bool, string>");
    different_types("sizes", array(prim(U8), 0), array(prim(U8), UINT64_MAX),
                    "array<u8, 0> to array<u8, 18446744073709551615>");
    different_types("bits shown", bits({"a", "b"}), bits({}), "bits { a, b } to bits {  }");
    different_types("nested", optional(array(set(map(prim(U8), result(prim(0), prim(13)))), 4)),
                    prim(0), "optional<array<set<map<u8, result<bool, void>>>, 4>> to bool");
}

void compared_types() {
    same_types("same primitive", prim(U8), prim(U8));
    same_types("same sub-byte", sub(1, 8), sub(1, 8));
    same_types("same semantic", sem(3), sem(3));
    same_types("same containers", map(sem(0), optional(prim(1))), map(sem(0), optional(prim(1))));
    same_types("same fixed array", array(prim(U8), 4), array(prim(U8), 4));
    same_types("same bits", bits({"a", "b"}), bits({"a", "b"}));
    same_types("two unresolvable ids", named(4), named(77));
    same_types("impl and empty name", named(2), named(3));
    same_types("one name", named(1), named(1));
    different_types("primitive and sub-byte u8", prim(U8), sub(0, 8), "u8 to u8");
    different_types("optional vector", optional(vec3(prim(9))), optional(vec3(prim(9))),
                    "optional<vec3<f32>> to optional<vec3<f32>>");
    different_types("unresolvable and impl", named(4), named(2), "<unknown> to ");
    different_types("impl and unresolvable", named(2), named(5), " to <unknown>");
    different_types("array and fixed array", array(prim(U8)), array(prim(U8), 4),
                    "array<u8> to array<u8, 4>");
    different_types("sizes differ", array(prim(U8), 4), array(prim(U8), 5),
                    "array<u8, 4> to array<u8, 5>");
    different_types("bit order", bits({"a", "b"}), bits({"b", "a"}),
                    "bits { a, b } to bits { b, a }");
    different_types("bit count", bits({"a"}), bits({"a", "b"}), "bits { a } to bits { a, b }");
    different_types("bit names join alike", bits({"ab", "c"}), bits({"a", "bc"}),
                    "bits { ab, c } to bits { a, bc }");
    different_types("key", map(prim(1), prim(2)), map(prim(2), prim(2)),
                    "map<u8, u16> to map<u16, u16>");
    different_types("value", map(prim(1), prim(2)), map(prim(1), prim(3)),
                    "map<u8, u16> to map<u8, u32>");
    different_types("error", result(prim(1), prim(2)), result(prim(1), prim(3)),
                    "result<u8, u16> to result<u8, u32>");
    different_types("width of a sub-byte", sub(0, 7), sub(0, 8), "u7 to u8");
    different_types("semantics differ", sem(1), sem(2), "bytes to rgb");
    different_types("signed", sub(0, 7), sub(1, 7), "u7 to i7");
}

// By name from each registry, not by id.
void named_types() {
    Bytes a = one.image({"n"}, {one.newtype("T", named(1)), one.trait("X"), one.trait("Y")}, {0});
    Bytes b = one.image({"n"}, {one.newtype("T", named(2)), one.trait("Y"), one.trait("X")}, {0});
    Bytes c = one.image({"n"}, {one.newtype("T", named(1)), one.trait("Y"), one.trait("X")}, {0});
    Bytes d = one.image({"n"}, {one.newtype("T", named(1)), one.newtype("X", prim(0))}, {0});
    expect_report("other id, same name", FIRST, a, b, "", SAME);
    expect_report("same id, other name", FIRST, a, c,
                  "FieldTypeChanged;Major;T;-;newtype 'T' inner type changed from X to Y\n",
                  BREAKS);
    expect_report("only the name counts", FIRST, a, d, "", SAME);
}

void namespaces() {
    auto spaced = [](const std::vector<std::string> &segments) {
        return one.image(segments, {}, {});
    };
    expect_report("nothing declared", FIRST, spaced({}), spaced({}), "", SAME);
    expect_report("same namespace", FIRST, spaced({"a", "b"}), spaced({"a", "b"}), "", SAME);
    expect_report("namespace", FIRST, spaced({"a", "b"}), spaced({"c"}),
                  "NamespaceChanged;Major;;-;namespace changed from 'a.b' to 'c'\n", BREAKS);
    expect_report("no segment, an empty one", FIRST, spaced({}), spaced({""}),
                  "NamespaceChanged;Major;;-;namespace changed from '' to ''\n", BREAKS);
    expect_report("segment order", FIRST, spaced({"a", "b"}), spaced({"b", "a"}),
                  "NamespaceChanged;Major;;-;namespace changed from 'a.b' to 'b.a'\n", BREAKS);
    expect_report("empty segment shown", FIRST, spaced({"a", ""}), spaced({"", "a"}),
                  "NamespaceChanged;Major;;-;namespace changed from 'a.' to '.a'\n", BREAKS);
}

void declarations() {
    Parts all = {one.message("M", {}),        one.enumeration("E", {}), one.flags("F", {}),
                 one.union_of("U", {}),       one.newtype("N", prim(0)), one.config("C"),
                 one.alias("G"),              one.trait("T"),            one.impl()};
    Bytes none = one.image({"n"}, {}, {});
    expect_report("all removed", FIRST, one.listed(all), none,
                  "DeclarationRemoved;Major;;-;impl '' was removed\n"
                  "DeclarationRemoved;Major;C;-;config 'C' was removed\n"
                  "DeclarationRemoved;Major;E;-;enum 'E' was removed\n"
                  "DeclarationRemoved;Major;F;-;flags 'F' was removed\n"
                  "DeclarationRemoved;Major;G;-;generic_alias 'G' was removed\n"
                  "DeclarationRemoved;Major;M;-;message 'M' was removed\n"
                  "DeclarationRemoved;Major;N;-;newtype 'N' was removed\n"
                  "DeclarationRemoved;Major;T;-;trait 'T' was removed\n"
                  "DeclarationRemoved;Major;U;-;union 'U' was removed\n",
                  "Breaking;Major;9");
    expect_report("name before its extensions", FIRST, none,
                  one.listed({one.trait("a_"), one.trait("ab"), one.trait("a"), one.trait("Z"),
                              one.trait("_")}),
                  "DeclarationAdded;Minor;Z;-;trait 'Z' was added\n"
                  "DeclarationAdded;Minor;_;-;trait '_' was added\n"
                  "DeclarationAdded;Minor;a;-;trait 'a' was added\n"
                  "DeclarationAdded;Minor;a_;-;trait 'a_' was added\n"
                  "DeclarationAdded;Minor;ab;-;trait 'ab' was added\n",
                  "Compatible;Minor;5");
}

void shared_declarations() {
    Bytes none = one.image({"n"}, {}, {});
    Parts silent = {one.config("C"), one.trait("T"), one.impl()};
    expect_report("config, trait, impl silent", FIRST, one.listed(silent), one.listed(silent), "",
                  SAME);
    Bytes field0 = field(0, "x", prim(0));
    expect_report("kind changed and no more", FIRST,
                  one.listed({one.message("A", {field0}), one.impl()}),
                  one.listed({one.union_of("A", {}), one.trait("")}),
                  "DeclarationKindChanged;Major;;-;'' changed from impl to trait\n"
                  "DeclarationKindChanged;Major;A;-;'A' changed from message to union\n",
                  "Breaking;Major;2");
    expect_report("not listed, not compared", FIRST,
                  one.image({"n"}, {one.message("A", {field0})}, {}), none, "", SAME);
    expect_report("another kind to alias", FIRST, one.listed({one.config("A")}),
                  one.listed({one.alias("A")}),
                  "DeclarationKindChanged;Major;A;-;'A' changed from config to generic_alias\n",
                  BREAKS);
    expect_report("alias to another kind", FIRST, one.listed({one.alias("A")}),
                  one.listed({one.config("A")}),
                  "DeclarationKindChanged;Major;A;-;'A' changed from generic_alias to config\n",
                  BREAKS);
}

void survivors() {
    Bytes lost = one.enumeration("A", {item(1, "x")}), kept = one.message("A", {});
    Bytes two = one.image({"n"}, {lost, kept}, {0, 1});
    Bytes turned = one.image({"n"}, {lost, kept}, {1, 0});
    Bytes only = one.image({"n"}, {kept}, {0});
    expect_report("last listed stands", FIRST, two, only, "", SAME);
    expect_report("listing order counts", FIRST, turned, only,
                  "DeclarationKindChanged;Major;A;-;'A' changed from enum to message\n", BREAKS);
    Bytes skipped = one.image({"n"}, {"", kept}, {1, 0, 2, 0xffffffff});
    expect_report("unresolvable ids are skipped", FIRST, skipped, only, "", SAME);
    Bytes twice = one.message("M", {field(3, "a", prim(U8)), field(3, "b", prim(U16))});
    expect_report("ordinal 3 twice", FIRST, one.listed({twice}),
                  one.listed({one.message("M", {field(3, "b", prim(U16))})}), "", SAME);
    Bytes variants = one.union_of("U", {one.variant(1, "a", {}),
                                        one.variant(1, "b", {field(0, "x", prim(0))})});
    expect_report("variant twice", FIRST, one.listed({variants}),
                  one.listed({one.union_of("U", {one.variant(1, "b", {})})}),
                  "FieldRemoved;Major;U::b;+x;field 'x' @0 was removed\n", BREAKS);
    expect_report("bit twice", FIRST, one.listed({one.flags("F", {item(2, "a"), item(2, "b")})}),
                  one.listed({one.flags("F", {})}),
                  "FlagsBitRemoved;Major;F;+b;bit 'b' @2 was removed\n", BREAKS);
}

void fields() {
    auto drive = [](const Parts &fields, unsigned marks = 0) {
        return one.listed({one.message("Drive", fields, marks)});
    };
    Bytes speed = field(0, "speed", prim(U16));
    expect_report("the paper's example", FIRST, drive({speed}),
                  drive({speed, field(1, "limit", prim(U16))}),
                  "FieldAdded;Major;Drive;+limit;field 'limit' @1 was added\n", BREAKS);
    expect_report("removed, added, rising", FIRST,
                  drive({field(9, "i", prim(0)), field(2, "b", prim(0))}),
                  drive({field(4294967295u, "z", prim(0)), field(5, "e", prim(0))}),
                  "FieldRemoved;Major;Drive;+b;field 'b' @2 was removed\n"
                  "FieldRemoved;Major;Drive;+i;field 'i' @9 was removed\n"
                  "FieldAdded;Major;Drive;+e;field 'e' @5 was added\n"
                  "FieldAdded;Major;Drive;+z;field 'z' @4294967295 was added\n",
                  "Breaking;Major;4");
    expect_report("all of one field", FIRST, drive({speed}),
                  drive({field(0, "pace", prim(U8), u8(1) + u8(3) + u8(1) + u8(0))}, 1),
                  "FieldRenamed;Patch;Drive;+pace;field @0 renamed from 'speed' to 'pace'\n"
                  "FieldTypeChanged;Major;Drive;+pace;field 'pace' @0 type changed from u16 to u8\n"
                  "FieldEncodingChanged;Major;Drive;+pace;field 'pace' @0 encoding changed from "
                  "default to delta(varint)\n"
                  "FieldDeprecated;Patch;Drive;+pace;field 'pace' was marked @deprecated\n"
                  "FieldDeprecated;Patch;Drive;-;declaration was marked @deprecated\n",
                  "Breaking;Major;5");
    expect_report("renamed alone", FIRST, drive({speed}), drive({field(0, "v", prim(U16))}),
                  "FieldRenamed;Patch;Drive;+v;field @0 renamed from 'speed' to 'v'\n",
                  "Compatible;Patch;1");
    Bytes marked3 = field(0, "speed", prim(U16), marked(3));
    Bytes marked2 = field(0, "speed", prim(U16), marked(2));
    expect_report("deprecation lost", FIRST, drive({marked3}, 1), drive({speed}), "", SAME);
    expect_report("deprecation kept", FIRST, drive({marked3}, 1), drive({marked3}, 1), "", SAME);
    expect_report("second mark on a field", FIRST, drive({marked2}, 2), drive({speed}), "", SAME);
}

void encodings() {
    auto coded = [](const Bytes &rest) {
        return one.listed({one.message("M", {field(0, "f", prim(U8), rest)})});
    };
    auto text = [](const std::string &change) {
        return "FieldEncodingChanged;Major;M;+f;field 'f' @0 encoding changed from " + change +
               "\n";
    };
    expect_report("limit 8 to 9", FIRST, coded(limited(8)), coded(limited(9)),
                  text("default to default"), BREAKS);
    expect_report("limit lost", FIRST, coded(limited(0)), coded(PLAIN), text("default to default"),
                  BREAKS);
    expect_report("same limit", FIRST, coded(limited(9)), coded(limited(9)), "", SAME);
    expect_report("varint to zigzag", FIRST, coded(encoded(u8(1))), coded(encoded(u8(2))),
                  text("varint to zigzag"), BREAKS);
    expect_report("deltas", FIRST, coded(encoded(u8(3) + u8(3) + u8(0))),
                  coded(encoded(u8(3) + u8(2))),
                  text("delta(delta(default)) to delta(zigzag)"), BREAKS);
    expect_report("one delta more", FIRST, coded(encoded(u8(1))), coded(encoded(u8(3) + u8(1))),
                  text("varint to delta(varint)"), BREAKS);
    expect_report("8 deltas", FIRST, coded(encoded(times(8, u8(3)) + u8(1))),
                  coded(encoded(times(8, u8(3)) + u8(1))), "", SAME);
}

void enums() {
    auto e = [](const Parts &items, unsigned marks = 0) {
        return one.listed({one.enumeration("E", items, marks)});
    };
    expect_report("variant added, open", FIRST, e({}, 2), e({item(1, "on")}, 2),
                  "VariantAdded;Minor;E;+on;variant 'on' @1 was added\n", "Compatible;Minor;1");
    expect_report("variant added, closed", FIRST, e({}), e({item(1, "on")}),
                  "VariantAdded;Major;E;+on;variant 'on' @1 was added\n", BREAKS);
    expect_report("closed to open", FIRST, e({}), e({item(1, "on")}, 2),
                  "NonExhaustiveChanged;Major;E;-;@non_exhaustive changed from false to true\n"
                  "VariantAdded;Minor;E;+on;variant 'on' @1 was added\n",
                  "Breaking;Major;2");
    expect_report("open to closed", FIRST, e({item(7, "x"), item(3, "y")}, 2), e({item(5, "z")}),
                  "NonExhaustiveChanged;Major;E;-;@non_exhaustive changed from true to false\n"
                  "VariantRemoved;Major;E;+y;variant 'y' @3 was removed\n"
                  "VariantRemoved;Major;E;+x;variant 'x' @7 was removed\n"
                  "VariantAdded;Major;E;+z;variant 'z' @5 was added\n",
                  "Breaking;Major;4");
    expect_report("renamed and deprecated, silent", FIRST, e({item(1, "a")}),
                  e({item(1, "b")}, 1), "", SAME);
}

void flags() {
    auto f = [](const Parts &items) { return one.listed({one.flags("F", items)}); };
    expect_report("bits", FIRST, f({item(9, "i"), item(1, "a")}), f({item(1, "b"), item(4, "d")}),
                  "FlagsBitRemoved;Major;F;+i;bit 'i' @9 was removed\n"
                  "FlagsBitAdded;Minor;F;+d;bit 'd' @4 was added\n",
                  "Breaking;Major;2");
    expect_report("bit added", FIRST, f({}), f({item(0, "a")}),
                  "FlagsBitAdded;Minor;F;+a;bit 'a' @0 was added\n", "Compatible;Minor;1");
}

void unions() {
    auto u = [](const Parts &variants) { return one.listed({one.union_of("U", variants)}); };
    Bytes x8 = field(0, "x", prim(U8)), x16 = field(0, "x", prim(U16), marked(1));
    expect_report("variants", FIRST, u({one.variant(1, "a", {x8}), one.variant(2, "b", {x8})}),
                  u({one.variant(1, "c", {x16}), one.variant(3, "d", {x8})}),
                  "VariantRemoved;Major;U;+b;variant 'b' @2 was removed\n"
                  "VariantAdded;Minor;U;+d;variant 'd' @3 was added\n"
                  "FieldTypeChanged;Major;U::a;+x;field 'x' @0 type changed from u8 to u16\n"
                  "FieldDeprecated;Patch;U::a;+x;field 'x' was marked @deprecated\n",
                  "Breaking;Major;4");
    expect_report("variant added", FIRST, u({}), u({one.variant(1, "a", {x8})}),
                  "VariantAdded;Minor;U;+a;variant 'a' @1 was added\n", "Compatible;Minor;1");
    expect_report("variant renamed", FIRST, u({one.variant(1, "a", {})}),
                  u({one.variant(1, "b", {})}), "", SAME);
}

void order_and_aliases() {
    Bytes before = one.image({"a"}, {one.trait("Gone"), one.flags("B", {item(0, "x")}),
                                     one.message("A", {})}, {2, 1, 0});
    Bytes after = one.image({}, {one.flags("B", {}), one.message("A", {}, 1), one.trait("New")},
                            {0, 1, 2});
    expect_report("order of the clauses", FIRST, before, after,
                  "NamespaceChanged;Major;;-;namespace changed from 'a' to ''\n"
                  "DeclarationRemoved;Major;Gone;-;trait 'Gone' was removed\n"
                  "DeclarationAdded;Minor;New;-;trait 'New' was added\n"
                  "FieldDeprecated;Patch;A;-;declaration was marked @deprecated\n"
                  "FlagsBitRemoved;Major;B;+x;bit 'x' @0 was removed\n",
                  "Breaking;Major;5");
    Bytes alias = one.listed({one.alias("G")}), covered = one.image(
        {"n"}, {one.alias("G"), one.trait("G")}, {0, 1});
    expect_refused("alias pair", FIRST, alias, alias, 11, 3);
    expect_refused("alias pair with imports", JUDGE_IMPORTS, alias, alias, 11, 3);
    expect_report("alias that lost its name", FIRST, covered, covered, "", SAME);
    expect_report("aliases of two names", FIRST, alias, one.listed({one.alias("H")}),
                  "DeclarationRemoved;Major;G;-;generic_alias 'G' was removed\n"
                  "DeclarationAdded;Minor;H;-;generic_alias 'H' was added\n",
                  "Breaking;Major;2");
    Bytes unlisted = one.image({"n"}, {one.alias("G")}, {});
    expect_report("alias that is not listed", FIRST, unlisted, unlisted, "", SAME);
}

}  // namespace

void test_clauses() {
    shown_types();
    compared_types();
    named_types();
    namespaces();
    declarations();
    shared_declarations();
    survivors();
    fields();
    encodings();
    enums();
    flags();
    unions();
    order_and_aliases();
}

}  // namespace test

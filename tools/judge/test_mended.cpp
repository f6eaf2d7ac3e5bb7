// R-5, R-6 and R-10: the mended verdict.
#include "maker.hpp"

namespace test {

namespace {

const Maker one{1}, two{2}, three{3};
const int FIRST = JUDGE_FIRST, IMPORTS = JUDGE_IMPORTS, MENDED = JUDGE_MENDED;
const std::string SAME = "Compatible;Patch;0";
const std::string BREAKS = "Breaking;Major;1";

Bytes typed(const Bytes &type) {
    Bytes vector = two.newtype("V", vec3(prim(9)));
    return two.image({"n"}, {two.newtype("T", type), two.trait("Leaf"), vector}, {0});
}

std::string type_changed(const std::string &shown) {
    return "FieldTypeChanged;Major;T;-;newtype 'T' inner type changed from " + shown + "\n";
}

// Different for 01 and imports, equal for the mended verdict.
void alike(const std::string &label, const Bytes &type, const std::string &shown) {
    std::string change = type_changed(shown + " to " + shown);
    for (int which : {FIRST, IMPORTS}) {
        expect_report(label, which, typed(type), typed(type), change, BREAKS);
    }
    expect_report(label + " mended", MENDED, typed(type), typed(type), "", SAME);
}

// Different in all three verdicts.
void different(const std::string &label, const Bytes &a, const Bytes &b,
               const std::string &shown) {
    for (int which : {FIRST, MENDED}) {
        expect_report(label, which, typed(a), typed(b), type_changed(shown), BREAKS);
    }
}

void three_answers() {
    Bytes f32 = prim(9);
    const char *words[] = {"vec2", "vec3", "vec4", "quat", "mat3", "mat4"};
    for (unsigned i = 0; i < 6; ++i) {
        alike(words[i], wrap(10 + i, f32), std::string(words[i]) + "<f32>");
    }
    alike("inside", optional(array(vec3(f32), 2)), "optional<array<vec3<f32>, 2>>");
    alike("second of a map", map(prim(0), vec3(f32)), "map<bool, vec3<f32>>");
    alike("vector over a name", vec3(named(1)), "vec3<Leaf>");
    different("other tag", vec3(f32), wrap(13, f32), "vec3<f32> to quat<f32>");
    different("other inner type", vec3(f32), vec3(prim(10)), "vec3<f32> to vec3<f64>");
    different("other elsewhere", map(vec3(f32), prim(1)), map(vec3(f32), prim(2)),
              "map<vec3<f32>, u8> to map<vec3<f32>, u16>");
    different("vector on one side", vec3(f32), f32, "vec3<f32> to f32");
    different("no vector at all", prim(1), prim(2), "u8 to u16");
    different("name in a vector", vec3(named(1)), vec3(named(5)), "vec3<Leaf> to vec3<<unknown>>");
    expect_report("equal in all", MENDED, typed(prim(1)), typed(prim(1)), "", SAME);
    // A named node is not entered: the type it names holds a vector.
    for (int which : {FIRST, MENDED}) {
        expect_report("named node not entered", which, typed(named(2)), typed(named(2)), "", SAME);
    }
}

// The mended verdict is otherwise by the clauses of 01, without imports.
void otherwise_as_01() {
    Parts a = {two.message("D", {field(0, "p", vec3(prim(9))), field(1, "l", named(1))}),
               two.message("L", {field(0, "m", prim(1))})};
    Bytes limit = field(1, "l", named(1), limited(3));
    Parts b = {two.message("D", {field(0, "q", vec3(prim(9))), limit}),
               two.message("L", {field(0, "m", prim(2))})};
    expect_report("clauses of 01", MENDED, two.image({"a"}, a, {0}), two.image({"b"}, b, {0}),
                  "NamespaceChanged;Major;;-;namespace changed from 'a' to 'b'\n"
                  "FieldRenamed;Patch;D;+q;field @0 renamed from 'p' to 'q'\n"
                  "FieldEncodingChanged;Major;D;+l;field 'l' @1 encoding changed from default to "
                  "default\n",
                  "Breaking;Major;3");
    Bytes alias = two.listed({two.alias("G")});
    expect_refused("alias pair", MENDED, alias, alias, 11, 3);
}

// The Ferris wheel: every image at distance 0 from itself.
void ferris_wheel() {
    Bytes seat = two.listed({two.message("Seat", {field(0, "at", vec3(prim(9)))})});
    expect_number("first", verdict(FIRST, seat, seat, 2), 2);
    expect_number("with imports", verdict(IMPORTS, seat, seat, 2), 2);
    expect_number("mended", verdict(MENDED, seat, seat, 2), 0);
}

void widths() {
    auto flags = [](const Maker &m, unsigned width) {
        return m.listed({m.flags("F", {item(0, "a")}, width)});
    };
    auto enums = [](unsigned width, unsigned marks, const Parts &items) {
        return two.listed({two.enumeration("E", items, marks, width)});
    };
    for (unsigned w : {2u, 4u, 8u}) {
        expect_report("flags width", MENDED, flags(two, 1), flags(two, w),
                      "WidthChanged;Major;F;-;width changed from 1 to " + std::to_string(w) + "\n",
                      BREAKS);
    }
    expect_report("flags width, format 3", MENDED, flags(three, 8), flags(three, 4),
                  "WidthChanged;Major;F;-;width changed from 8 to 4\n", BREAKS);
    expect_report("same width", MENDED, flags(two, 4), flags(two, 4), "", SAME);
    expect_report("bits of an enum", MENDED, enums(8, 0, {}), enums(16, 0, {}),
                  "WidthChanged;Major;E;-;width changed from 8 to 16\n", BREAKS);
    expect_report("as stored", MENDED, enums(0, 0, {}), enums(255, 0, {}),
                  "WidthChanged;Major;E;-;width changed from 0 to 255\n", BREAKS);
    expect_report("first in its declaration", MENDED, enums(3, 0, {item(1, "a")}),
                  enums(4, 2, {item(2, "b")}),
                  "WidthChanged;Major;E;-;width changed from 3 to 4\n"
                  "NonExhaustiveChanged;Major;E;-;@non_exhaustive changed from false to true\n"
                  "VariantRemoved;Major;E;+a;variant 'a' @1 was removed\n"
                  "VariantAdded;Minor;E;+b;variant 'b' @2 was added\n",
                  "Breaking;Major;4");
    for (int which : {FIRST, IMPORTS}) {
        expect_report("width ignored", which, flags(two, 1), flags(two, 8), "", SAME);
        expect_report("width ignored", which, enums(1, 0, {}), enums(9, 0, {}), "", SAME);
    }
    expect_report("enum against flags", MENDED, two.listed({two.enumeration("A", {}, 0, 1)}),
                  two.listed({two.flags("A", {}, 2)}),
                  "DeclarationKindChanged;Major;A;-;'A' changed from enum to flags\n", BREAKS);
}

// A ninth bit moves every field behind it.
void ninth_bit() {
    Parts eight, nine;
    for (uint32_t bit = 0; bit < 9; ++bit) {
        if (bit < 8) eight.push_back(item(bit, "b" + std::to_string(bit)));
        nine.push_back(item(bit, "b" + std::to_string(bit)));
    }
    Bytes a = two.listed({two.flags("F", eight, 1)}), b = two.listed({two.flags("F", nine, 2)});
    std::string added = "FlagsBitAdded;Minor;F;+b8;bit 'b8' @8 was added\n";
    expect_report("ninth bit, first", FIRST, a, b, added, "Compatible;Minor;1");
    expect_report("ninth bit, mended", MENDED, a, b,
                  "WidthChanged;Major;F;-;width changed from 1 to 2\n" + added,
                  "Breaking;Major;2");
}

// 16, after 10 and before 11.
void mixed_formats() {
    Bytes images[] = {one.listed({one.trait("A")}), two.listed({two.trait("A")}),
                      three.listed({three.trait("A")})};
    for (int a = 0; a < 3; ++a) {
        for (int b = 0; b < 3; ++b) {
            if (a == b && a > 0) {
                expect_report("one format", MENDED, images[a], images[b], "", SAME);
            } else {
                expect_refused("mixed", MENDED, images[a], images[b], 16, 3);
            }
            expect_report("formats, first", FIRST, images[a], images[b], "", SAME);
        }
    }
    Bytes alias = one.listed({one.alias("G")}), bad = two.listed({u8(9)});
    expect_refused("16 before 11", MENDED, alias, alias, 16, 3);
    expect_refused("old's 6 before 16", MENDED, bad, images[0], 6, 1);
    expect_refused("new's 6 before 16", MENDED, images[0], bad, 6, 2);
}

Bytes struck(const Numbers &numbers, const Numbers &used) {
    Parts fields;
    for (uint32_t n : used) fields.push_back(field(n, "f" + std::to_string(n), prim(0)));
    return three.listed({three.message("M", fields, 0, numbers)});
}

std::string reused(const std::string &declaration, const std::string &n) {
    return "TombstoneReused;Major;" + declaration + ";-;tombstone @" + n + " was reused\n";
}

std::string dropped(const std::string &declaration, const std::string &n) {
    return "TombstoneDropped;Major;" + declaration + ";-;tombstone @" + n + " was dropped\n";
}

void tombstones() {
    std::string added = "FieldAdded;Major;M;+f3;field 'f3' @3 was added\n";
    expect_report("reused", MENDED, struck({3}, {}), struck({}, {3}), added + reused("M", "3"),
                  "Breaking;Major;2");
    expect_report("reused, still struck", MENDED, struck({3}, {}), struck({3}, {3}),
                  added + reused("M", "3"), "Breaking;Major;2");
    expect_report("dropped", MENDED, struck({3}, {}), struck({}, {}), dropped("M", "3"), BREAKS);
    expect_report("kept", MENDED, struck({3}, {}), struck({9, 3}, {}), "", SAME);
    expect_report("struck off anew", MENDED, struck({}, {}), struck({4}, {}), "", SAME);
    expect_report("repeats count as one", MENDED, struck({7, 7, 7}, {}), struck({}, {}),
                  dropped("M", "7"), BREAKS);
    expect_report("reused before dropped, rising", MENDED,
                  struck({9, 4294967295u, 1, 5, 3}, {5, 1}), struck({}, {5, 1}),
                  reused("M", "1") + reused("M", "5") + dropped("M", "3") + dropped("M", "9") +
                      dropped("M", "4294967295"),
                  "Breaking;Major;5");
    for (int which : {FIRST, IMPORTS}) {
        expect_report("skipped", which, struck({3}, {}), struck({}, {}), "", SAME);
        expect_report("skipped", which, struck({3}, {3}), struck({3}, {3}), "", SAME);
    }
    expect_report("need not be equal both ways", MENDED, struck({}, {}), struck({3}, {}), "",
                  SAME);
    Bytes last = three.listed({three.message("M", {}, 1, {})});
    expect_report("last in a message", MENDED, struck({3}, {}), last,
                  "FieldDeprecated;Patch;M;-;declaration was marked @deprecated\n" +
                      dropped("M", "3"),
                  "Breaking;Major;2");
}

void tombstones_of_lists() {
    Parts b1 = {item(1, "b")};
    std::string variant = "VariantAdded;Major;L;+b;variant 'b' @1 was added\n";
    expect_report("enum", MENDED, three.listed({three.enumeration("L", {}, 0, 8, {2, 1})}),
                  three.listed({three.enumeration("L", b1, 0, 8, {})}),
                  variant + reused("L", "1") + dropped("L", "2"), "Breaking;Major;3");
    std::string bit = "FlagsBitAdded;Minor;L;+b;bit 'b' @1 was added\n";
    expect_report("flags", MENDED, three.listed({three.flags("L", {}, 1, {2, 1})}),
                  three.listed({three.flags("L", b1, 2, {})}),
                  "WidthChanged;Major;L;-;width changed from 1 to 2\n" + bit + reused("L", "1") +
                      dropped("L", "2"),
                  "Breaking;Major;4");
    expect_report("only of one kind", MENDED, three.listed({three.flags("L", {}, 1, {1})}),
                  three.listed({three.enumeration("L", b1)}),
                  "DeclarationKindChanged;Major;L;-;'L' changed from flags to enum\n", BREAKS);
    expect_report("only shared declarations", MENDED,
                  three.listed({three.flags("L", {}, 1, {1})}), three.listed({}),
                  "DeclarationRemoved;Major;L;-;flags 'L' was removed\n", BREAKS);
}

void tombstones_of_unions() {
    Bytes x = field(5, "x", prim(0));
    Parts before = {three.variant(1, "a", {}, {5, 6}), three.variant(2, "b", {}, {7})};
    Parts after = {three.variant(2, "c", {}, {}), three.variant(1, "a", {x}, {}),
                   three.variant(3, "d", {}, {})};
    expect_report("union and variants", MENDED,
                  three.listed({three.union_of("U", before, {9, 3})}),
                  three.listed({three.union_of("U", after, {})}),
                  "VariantAdded;Minor;U;+d;variant 'd' @3 was added\n"
                  "FieldAdded;Major;U::a;+x;field 'x' @5 was added\n" +
                      reused("U::a", "5") + dropped("U::a", "6") + dropped("U::b", "7") +
                      reused("U", "3") + dropped("U", "9"),
                  "Breaking;Major;7");
    expect_report("a variant's fields are none of the union's", MENDED,
                  three.listed({three.union_of("U", {three.variant(1, "a", {x}, {1})}, {5})}),
                  three.listed({three.union_of("U", {three.variant(1, "a", {x}, {1})}, {5})}), "",
                  SAME);
    Parts lost = {three.variant(1, "a", {}, {5}), three.variant(1, "b", {}, {6})};
    expect_report("last variant's tombstones", MENDED, three.listed({three.union_of("U", lost)}),
                  three.listed({three.union_of("U", {three.variant(1, "c", {})})}),
                  dropped("U::b", "6"), BREAKS);
    Parts keep = {three.variant(1, "z", {}, {6}), three.variant(1, "y", {})};
    expect_report("on the new side too", MENDED, three.listed({three.union_of("U", lost)}),
                  three.listed({three.union_of("U", keep)}), dropped("U::b", "6"), BREAKS);
    expect_report("variant on one side alone", MENDED,
                  three.listed({three.union_of("U", {three.variant(1, "a", {}, {5})})}),
                  three.listed({three.union_of("U", {})}),
                  "VariantRemoved;Major;U;+a;variant 'a' @1 was removed\n", BREAKS);
}

// Strikes off and uses: 2 from itself; all others 0.
void self_distances() {
    auto self = [](const Bytes &image) { return verdict(MENDED, image, image, 2); };
    expect_number("strikes off and uses", self(struck({3}, {3})), 2);
    expect_number("strikes off another", self(struck({3}, {4})), 0);
    Bytes both = three.variant(1, "a", {field(2, "x", prim(0))}, {2});
    expect_number("in a variant", self(three.listed({three.union_of("U", {both})})), 2);
    Parts lost = {both, three.variant(1, "b", {})};
    expect_number("in a lost variant", self(three.listed({three.union_of("U", lost)})), 0);
    Bytes bad = three.message("M", {field(3, "x", prim(0))}, 0, {3});
    expect_number("not listed", self(three.image({"n"}, {bad}, {})), 0);
    expect_number("lost its name", self(three.listed({bad, three.trait("M")})), 0);
    expect_number("vectors and tombstones", self(three.listed({three.message(
                                                "M", {field(1, "x", vec3(prim(9)))}, 0, {3})})),
                  0);
}

// A middle release cannot hide a reuse.
void chain_of_three() {
    Bytes a = struck({3}, {}), b = struck({}, {}), c = struck({}, {3});
    expect_number("old to middle", verdict(MENDED, a, b, 2), 2);
    expect_number("middle to new", verdict(MENDED, b, c, 24), 0);
    expect_number("old to new", verdict(MENDED, a, c, 24), 1);
    Bytes open = three.listed({three.enumeration("E", {}, 2, 8, {3})});
    Bytes hidden = three.listed({three.enumeration("E", {}, 2, 8, {})});
    Bytes wrong = three.listed({three.enumeration("E", {item(3, "x")}, 2, 8, {})});
    expect_number("middle to new is Minor", verdict(MENDED, hidden, wrong, 2), 1);
    expect_number("old to new is Major", verdict(MENDED, open, wrong, 2), 2);
    expect_number("so dropping is Major", verdict(MENDED, open, hidden, 2), 2);
}

}  // namespace

void test_mended() {
    three_answers();
    otherwise_as_01();
    ferris_wheel();
    widths();
    ninth_bit();
    mixed_formats();
    tombstones();
    tombstones_of_lists();
    tombstones_of_unions();
    self_distances();
    chain_of_three();
}

}  // namespace test

// the verdict that follows imports.
#include "maker.hpp"

namespace test {

namespace {

const Maker one{1}, two{2}, three{3};
const int FIRST = JUDGE_FIRST, IMPORTS = JUDGE_IMPORTS;
const std::string SAME = "Compatible;Patch;0";
const std::string BREAKS = "Breaking;Major;1";
const std::string LIMIT16 =
    "FieldTypeChanged;Major;Limit;+max;field 'max' @0 type changed from u8 to u16\n";

Bytes limit(unsigned code) { return one.message("Limit", {field(0, "max", prim(code))}); }

// Entry 0 is a listed declaration, the others are not listed.
Bytes first_listed(const Parts &bodies) { return one.image({"n"}, bodies, {0}); }

// A changed import is changed wire; the first verdict stays equal to the Rust.
void changed_import() {
    Bytes drive = one.message("Drive", {field(0, "limit", named(1))});
    Bytes before = first_listed({drive, limit(U8)}), after = first_listed({drive, limit(U16)});
    expect_report("first: import unseen", FIRST, before, after, "", SAME);
    expect_report("import seen", IMPORTS, before, after, LIMIT16, BREAKS);
    Bytes loose = one.message("Drive", {field(0, "limit", prim(0))});
    expect_report("unreached, unseen", IMPORTS, first_listed({loose, limit(U8)}),
                  first_listed({loose, limit(U16)}), "", SAME);
}

// At any depth, from every kind that has types.
void reached_from() {
    Bytes deep = map(prim(0), optional(array(set(result(prim(0), array(named(1), 3))))));
    Parts starts = {
        one.message("D", {field(0, "x", deep)}),
        one.newtype("D", vec3(named(1))),
        one.newtype("D", map(named(1), prim(0))),
        one.union_of("D", {one.variant(0, "v", {field(2, "x", result(named(1), prim(0)))})})};
    for (const Bytes &start : starts) {
        Bytes before = first_listed({start, limit(U8)}), after = first_listed({start, limit(U16)});
        bool vector = start == starts[1];
        std::string own = vector ? "FieldTypeChanged;Major;D;-;newtype 'D' inner type changed "
                                   "from vec3<Limit> to vec3<Limit>\n"
                                 : "";
        expect_report("reached", IMPORTS, before, after, own + LIMIT16,
                      vector ? "Breaking;Major;2" : BREAKS);
    }
}

// Only compared types are followed.
void not_reached_from() {
    Bytes twice = one.message("D", {field(0, "x", named(1)), field(0, "x", prim(0))});
    Bytes variants = one.union_of("D", {one.variant(0, "v", {field(0, "x", named(1))}),
                                        one.variant(0, "v", {})});
    for (const Bytes &start : {twice, variants}) {
        expect_report("lost field or variant", IMPORTS, first_listed({start, limit(U8)}),
                      first_listed({start, limit(U16)}), "", SAME);
    }
    Parts bodies = {one.newtype("D", named(2)), one.trait("D"), limit(U8)};
    Parts changed = {one.newtype("D", named(2)), one.trait("D"), limit(U16)};
    expect_report("lost declaration is no start", IMPORTS, one.image({"n"}, bodies, {0, 1}),
                  one.image({"n"}, changed, {0, 1}), "", SAME);
    expect_report("unresolvable ids reach nothing", IMPORTS,
                  first_listed({one.newtype("D", named(7)), limit(U8)}),
                  first_listed({one.newtype("D", named(9)), limit(U16)}), "", SAME);
}

// Over any number of steps; schemas may refer back to themselves.
void steps() {
    auto chain = [](unsigned code) {
        return first_listed({one.newtype("A", named(1)),
                             one.message("B", {field(0, "c", named(2))}),
                             one.union_of("C", {one.variant(0, "v", {field(0, "d", named(3))})}),
                             one.newtype("D", named(4)), limit(code)});
    };
    expect_report("five steps", IMPORTS, chain(U8), chain(U16), LIMIT16, BREAKS);
    auto loop = [](unsigned code) {
        Bytes own = one.message("Limit", {field(0, "max", prim(code)), field(1, "a", named(0)),
                                          field(2, "b", named(1)), field(3, "c", named(1))});
        return first_listed({one.newtype("A", named(1)), own});
    };
    expect_report("loop: once", IMPORTS, loop(U8), loop(U16), LIMIT16, BREAKS);
}

// The surviving declaration stands, reached or not; else the highest id.
void what_stands() {
    Parts same = {one.message("D", {field(0, "a", named(1)), field(1, "b", named(2))}),
                  one.trait("X"), one.config("X")};
    Parts turned = {same[0], same[2], same[1]};
    expect_report("highest id", IMPORTS, first_listed(same), first_listed(turned),
                  "DeclarationKindChanged;Major;X;-;'X' changed from config to trait\n", BREAKS);
    Parts order = {one.message("D", {field(0, "a", named(2)), field(1, "b", named(1))}),
                   one.trait("X"), one.config("X")};
    expect_report("not the last reached", IMPORTS, first_listed(order), first_listed(same), "",
                  SAME);
    // X is listed as trait 1; the reached X is config 2.
    Parts mixed = {one.newtype("D", named(2)), one.trait("X"), one.config("X")};
    expect_report("survivor before reached", IMPORTS, one.image({"n"}, mixed, {1, 0}),
                  one.image({"n"}, {one.newtype("D", named(1)), one.trait("X")}, {0, 1}), "",
                  SAME);
    // A reached entry that does not stand is followed all the same.
    auto through = [](unsigned code) {
        Parts bodies = {one.newtype("D", named(2)), one.trait("X"), one.newtype("X", named(3)),
                        limit(code)};
        return one.image({"n"}, bodies, {0, 1});
    };
    expect_report("followed though it does not stand", IMPORTS, through(U8), through(U16), LIMIT16,
                  BREAKS);
    // Of survivors one name: the last listed, though a lost one is reached.
    Parts lost = {one.newtype("D", named(1)), one.trait("X"), one.config("X")};
    expect_report("lost but reached", IMPORTS, one.image({"n"}, lost, {0, 1, 2}),
                  one.image({"n"}, {one.newtype("D", named(1)), one.config("X")}, {0, 1}), "",
                  SAME);
    // One side lists X, the other reaches it: compared.
    expect_report("listed against reached", IMPORTS,
                  first_listed({one.newtype("D", named(1)), limit(U8)}),
                  one.listed({one.newtype("D", named(1)), limit(U16)}), LIMIT16, BREAKS);
}

// As survivor or reached on one side alone: clause 2, in the same order.
void one_side_alone() {
    Parts reaching = {one.message("D", {field(0, "z", named(2)), field(1, "i", named(3))}), "",
                      one.trait("Far"), one.impl()};
    Parts plain = {one.message("D", {field(0, "z", named(1)), field(1, "i", named(1))}), ""};
    expect_report("removed", IMPORTS, first_listed(reaching), first_listed(plain),
                  "DeclarationRemoved;Major;;-;impl '' was removed\n"
                  "DeclarationRemoved;Major;Far;-;trait 'Far' was removed\n"
                  "FieldTypeChanged;Major;D;+z;field 'z' @0 type changed from Far to <unknown>\n"
                  "FieldTypeChanged;Major;D;+i;field 'i' @1 type changed from  to <unknown>\n",
                  "Breaking;Major;4");
    expect_report("added", IMPORTS, first_listed({one.newtype("D", prim(0)), one.trait("E")}),
                  one.listed({one.newtype("D", prim(0)), one.newtype("B", named(2)),
                              one.trait("E")}),
                  "DeclarationAdded;Minor;B;-;newtype 'B' was added\n"
                  "DeclarationAdded;Minor;E;-;trait 'E' was added\n",
                  "Compatible;Minor;2");
    expect_report("reached by a change of type", IMPORTS,
                  first_listed({one.newtype("D", prim(0)), limit(U8)}),
                  first_listed({one.newtype("D", named(1)), limit(U8)}),
                  "DeclarationAdded;Minor;Limit;-;message 'Limit' was added\n"
                  "FieldTypeChanged;Major;D;-;newtype 'D' inner type changed from bool to Limit\n",
                  "Breaking;Major;2");
}

// 11 over all entries that stand.
void aliases() {
    Bytes reaching = first_listed({one.newtype("D", named(1)), one.alias("G")});
    expect_refused("reached aliases", IMPORTS, reaching, reaching, 11, 3);
    expect_report("first: aliases not listed", FIRST, reaching, reaching, "", SAME);
    Bytes listed = one.listed({one.newtype("D", named(1)), one.alias("G")});
    expect_refused("listed against reached alias", IMPORTS, listed, reaching, 11, 3);
    expect_refused("reached against listed alias", IMPORTS, reaching, listed, 11, 3);
    Bytes covered = first_listed({one.message("D", {field(0, "a", named(1)),
                                                    field(1, "b", named(2))}),
                                  one.alias("G"), one.trait("G")});
    expect_report("alias that does not stand", IMPORTS, covered, covered, "", SAME);
    Bytes unreached = first_listed({one.newtype("D", prim(0)), one.alias("G")});
    expect_report("alias not reached", IMPORTS, unreached, unreached, "", SAME);
    Bytes here = first_listed({one.newtype("D", named(1)), one.alias("G")});
    Bytes there = first_listed({one.newtype("D", named(1)), one.config("G")});
    expect_report("alias on one side", IMPORTS, here, there,
                  "DeclarationKindChanged;Major;G;-;'G' changed from generic_alias to config\n",
                  BREAKS);
}

// The distance rule: the compared types are those of all entries that stand.
void distances() {
    auto vector_at = [](const Bytes &start) {
        return first_listed({start, one.newtype("V", vec3(prim(9)))});
    };
    Bytes reached = vector_at(one.newtype("D", named(1)));
    Bytes unreached = vector_at(one.newtype("D", prim(0)));
    expect_number("reached vector", verdict(IMPORTS, reached, reached, 2), 2);
    expect_number("unreached vector", verdict(IMPORTS, unreached, unreached, 2), 0);
    expect_number("first: reached vector", verdict(FIRST, reached, reached, 2), 0);
    Bytes fallen = first_listed({one.message("D", {field(0, "a", named(1)),
                                                   field(1, "b", named(2))}),
                                 one.newtype("V", vec3(prim(9))), one.newtype("V", prim(0))});
    expect_number("vector in an entry that does not stand", verdict(IMPORTS, fallen, fallen, 2),
                  0);
}

// Formats 2 and 3: widths and tombstones are ignored.
void formats() {
    auto with = [](const Maker &m, unsigned width, const Numbers &struck) {
        return m.image({"n"},
                       {m.newtype("D", named(1)), m.flags("F", {item(0, "a")}, width, struck)},
                       {0});
    };
    Bytes f1 = with(one, 0, {}), f2 = with(two, 2, {}), f3 = with(three, 8, {5, 0});
    for (int which : {FIRST, IMPORTS}) {
        for (const Bytes &a : {f1, f2, f3}) {
            for (const Bytes &b : {f1, f2, f3}) expect_report("formats", which, a, b, "", SAME);
        }
    }
}

}  // namespace

void test_imports() {
    changed_import();
    reached_from();
    not_reached_from();
    steps();
    what_stands();
    one_side_alone();
    aliases();
    distances();
    formats();
}

}  // namespace test

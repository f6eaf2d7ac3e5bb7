// R-13: the premise, filing anew, and the decision.
#include <set>

#include "maker.hpp"

namespace test {

namespace {

const Maker one{1}, two{2}, three{3};

// ---- the premise ----

void names() {
    Bytes a = one.trait("A"), other = one.config("A");
    expect_number("no repeats", uint64_t(repeats(one.listed({a, one.trait("B")}))), 0);
    expect_number("two of one name", uint64_t(repeats(one.listed({a, other}))), 1);
    expect_number("two of one body", uint64_t(repeats(one.listed({a, a}))), 1);
    expect_number("impls among themselves", uint64_t(repeats(one.listed({one.impl(), one.impl()}))),
                  0);
    expect_number("impl and empty name", uint64_t(repeats(one.listed({one.impl(), one.trait("")}))),
                  1);
    expect_number("empty name and impl", uint64_t(repeats(one.listed({one.trait(""), one.impl()}))),
                  1);
    expect_number("not declared", uint64_t(repeats(one.image({}, {a, other}, {0}))), 0);
    expect_number("one declaration listed twice", uint64_t(repeats(one.image({}, {a}, {0, 0}))),
                  0);
    expect_number("unresolvable twice", uint64_t(repeats(one.image({}, {a, ""}, {0, 1, 1, 9, 9}))),
                  0);
    expect_number("not accepted", uint64_t(repeats("")), 0);
}

void numbers() {
    auto broken = [](const Bytes &body) { return uint64_t(repeats(three.image({}, {body}, {}))); };
    Bytes f = field(1, "a", prim(0)), g = field(1, "b", prim(1)), h = field(2, "a", prim(0));
    expect_number("fields", broken(three.message("M", {f, g})), 1);
    expect_number("field names may repeat", broken(three.message("M", {f, h})), 0);
    Parts items = {item(1, "a"), item(2, "b"), item(1, "c")};
    expect_number("enum variants", broken(three.enumeration("E", items)), 1);
    expect_number("bits", broken(three.flags("F", items)), 1);
    expect_number("union variants",
                  broken(three.union_of("U", {three.variant(1, "a", {}),
                                              three.variant(1, "b", {})})),
                  1);
    expect_number("fields of a variant",
                  broken(three.union_of("U", {three.variant(1, "a", {f, g})})), 1);
    expect_number("fields of two variants",
                  broken(three.union_of("U", {three.variant(1, "a", {f}),
                                              three.variant(2, "b", {g})})),
                  0);
    expect_number("tombstones are not looked at",
                  broken(three.message("M", {f}, 0, {1, 1, 7, 7})), 0);
    expect_number("bit names may repeat", broken(three.newtype("T", bits({"a", "a"}))), 0);
}

// ---- the decision, by hand ----

void yes(const std::string &label, const Bytes &a, const Bytes &b) {
    expect(label, refiled(a, b) == 1 && refiled(b, a) == 1);
}

void no(const std::string &label, const Bytes &a, const Bytes &b) {
    expect(label, refiled(a, b) == 0 && refiled(b, a) == 0);
}

void reordered() {
    Bytes f = field(1, "a", prim(0)), g = field(2, "b", prim(1));
    auto m = [](const Parts &fields) { return one.listed({one.message("M", fields)}); };
    yes("itself", m({f, g}), m({f, g}));
    yes("fields", m({f, g}), m({g, f}));
    no("other ordinals", m({f}), m({field(2, "a", prim(0))}));
    no("other name", m({f}), m({field(1, "b", prim(0))}));
    no("other marks", m({f}), m({field(1, "a", prim(0), marked(2))}));
    no("other limit", m({f}), m({field(1, "a", prim(0), limited(2))}));
    no("other type", m({f}), m({field(1, "a", prim(1))}));
    no("a field less", m({f, g}), m({f}));
    Bytes x = item(1, "x"), y = item(5, "y");
    yes("enum variants", one.listed({one.enumeration("E", {x, y})}),
        one.listed({one.enumeration("E", {y, x})}));
    yes("bits", one.listed({one.flags("F", {x, y})}), one.listed({one.flags("F", {y, x})}));
    no("enum marks", one.listed({one.enumeration("E", {x}, 1)}),
       one.listed({one.enumeration("E", {x})}));
    auto u = [](const Parts &variants) { return one.listed({one.union_of("U", variants)}); };
    yes("variants and their fields", u({one.variant(1, "v", {f, g}), one.variant(2, "w", {f})}),
        u({one.variant(2, "w", {f}), one.variant(1, "v", {g, f})}));
    no("fields of another variant", u({one.variant(1, "v", {f}), one.variant(2, "w", {})}),
       u({one.variant(1, "v", {}), one.variant(2, "w", {f})}));
    no("inline bits stay in order", one.listed({one.newtype("T", bits({"a", "b"}))}),
       one.listed({one.newtype("T", bits({"b", "a"}))}));
    no("segments stay in order", one.image({"a", "b"}, {}, {}), one.image({"b", "a"}, {}, {}));
    no("widths stay", two.listed({two.flags("F", {}, 1)}), two.listed({two.flags("F", {}, 2)}));
    no("formats stay", two.listed({}), three.listed({}));
    no("tombstones stay", three.listed({three.flags("F", {}, 1, {1, 2})}),
       three.listed({three.flags("F", {}, 1, {2, 1})}));
    no("other tombstones", three.listed({three.flags("F", {}, 1, {1})}),
       three.listed({three.flags("F", {}, 1, {2})}));
}

void renumbered() {
    Bytes a = one.trait("A"), b = one.trait("B"), c = one.trait("C");
    auto img = [](const Parts &bodies, const Numbers &ids) {
        return one.image({"n"}, bodies, ids);
    };
    yes("declarations", img({a, b}, {0, 1}), img({a, b}, {1, 0}));
    yes("registry", img({a, b}, {0, 1}), img({b, a}, {0, 1}));
    yes("registry with an empty entry", img({a, "", b}, {0}), img({"", b, a}, {2}));
    no("another is declared", img({a, b}, {0}), img({a, b}, {1}));
    no("a declaration more", img({a, b}, {0}), img({a, b}, {0, 1}));
    no("an entry more", img({a}, {0}), img({a, c}, {0}));
    no("an empty entry more", img({a}, {0}), img({a, ""}, {0}));
    yes("unresolvable become others", img({a, ""}, {0, 1, 7}), img({a, ""}, {99, 0, 99}));
    no("unresolvable become resolvable", img({a, b}, {0, 7}), img({a, b}, {0, 1}));
    no("unresolvable are counted", img({a}, {0, 7}), img({a}, {0}));
    no("listed twice stays twice", img({a, b}, {0, 0, 1}), img({a, b}, {0, 1, 1}));
    yes("listed twice", img({a, b}, {0, 0, 1}), img({b, a}, {1, 0, 1}));
    auto t = [](uint32_t id) { return one.newtype("T", map(named(id), named(9))); };
    yes("ids in types follow", img({t(1), a, b}, {0}), img({b, a, t(1)}, {2}));
    no("ids in types must follow", img({t(1), a, b}, {0}), img({t(2), a, b}, {0}));
    yes("unresolvable in types", img({t(8), ""}, {0}), img({"", t(0)}, {1}));
    no("resolvable in types stay so", img({t(1), a}, {0}), img({t(9), a}, {0}));
}

// Entries of one name that are not declared, and impls: the ids must follow
// one renumbering for the whole image.
void shared_names() {
    auto pair = [](uint32_t x, uint32_t y, const Parts &others) {
        Parts bodies = {one.newtype("T", map(named(x), named(y)))};
        bodies.insert(bodies.end(), others.begin(), others.end());
        return one.image({"n"}, bodies, {0});
    };
    Parts impls = {one.impl(), one.impl()};
    Parts xs = {one.newtype("X", prim(0)), one.newtype("X", prim(1))};
    Parts turned = {xs[1], xs[0]};
    yes("two impls", pair(1, 2, impls), pair(2, 1, impls));
    no("one impl twice", pair(1, 1, impls), pair(1, 2, impls));
    yes("one impl or the other twice", pair(1, 1, impls), pair(2, 2, impls));
    no("of one name, other bodies", pair(1, 2, xs), pair(2, 1, xs));
    auto two_pairs = [&](uint32_t x, uint32_t y) {
        return one.image({"n"}, {impls[0], impls[1], one.newtype("T", map(named(0), named(1))),
                                 one.newtype("U", map(named(x), named(y)))}, {2, 3});
    };
    yes("the same impl first", two_pairs(0, 1), two_pairs(0, 1));
    no("the other impl first", two_pairs(0, 1), two_pairs(1, 0));
    yes("of one name, renumbered", pair(1, 2, xs), pair(2, 1, turned));
    // Rings of undeclared entries: one of four, or two of two.
    auto ring = [](const Numbers &next) {
        Parts bodies;
        for (uint32_t id : next) bodies.push_back(one.newtype("R", named(id)));
        return one.image({"n"}, bodies, {});
    };
    yes("a ring of four", ring({1, 2, 3, 0}), ring({2, 3, 1, 0}));
    no("a ring of four, two of two", ring({1, 2, 3, 0}), ring({1, 0, 3, 2}));
    yes("two rings of two", ring({1, 0, 3, 2}), ring({3, 2, 1, 0}));
    yes("threes and twos", ring({1, 2, 0, 4, 3}), ring({3, 2, 1, 4, 0}));
    // Many alike beside a part that does not match: told apart at once.
    Numbers four = {1, 2, 3, 0}, twos = {1, 0, 3, 2};
    auto crowd = [&](const Numbers &next) {
        Parts bodies(500, one.impl());
        for (uint32_t id : next) bodies.push_back(one.newtype("R", named(500 + id)));
        return one.image({"n"}, bodies, {});
    };
    no("a crowd and rings", crowd(four), crowd(twos));
    yes("a crowd and one ring", crowd(four), crowd({2, 3, 1, 0}));
    no("impls listed otherwise", one.image({}, impls, {0, 0, 1, 1}),
       one.image({}, impls, {0, 0, 0, 1}));
    yes("impls listed", one.image({}, impls, {0, 0, 1}), one.image({}, impls, {1, 0, 1}));
}

void refused() {
    Bytes twice = one.listed({one.trait("A"), one.trait("A")}), good = one.listed({});
    expect("repeats are not filed", refile(twice, 1).empty() && refiled(twice, twice) == 0);
    expect("refused are not filed", refile("", 1).empty() && refiled("", good) == 0 &&
                                        refiled(good, "") == 0);
    uint8_t out[64];
    const uint8_t *bytes = reinterpret_cast<const uint8_t *>(good.data());
    expect_number("does not fit", judge_refile(bytes, good.size(), 1, out, good.size() - 1), 0);
    expect_number("fits", judge_refile(bytes, good.size(), 1, out, sizeof out), good.size());
}

// Over many seeds each way of filing anew is taken, and nothing else moves.
void expect_forms(const std::string &label, const Bytes &image, size_t least, size_t most) {
    std::set<Bytes> forms;
    for (uint64_t seed = 0; seed < 200; ++seed) forms.insert(refile(image, seed));
    expect(label, forms.size() >= least && forms.size() <= most);
}

void each_way() {
    Bytes f = field(1, "a", prim(0)), g = field(2, "b", prim(1));
    Parts items = {item(1, "x"), item(2, "y"), item(3, "z")};
    auto single = [](const Bytes &body) { return three.image({"a", "b"}, {body}, {0}); };
    expect_forms("nothing to move", single(three.newtype("T", bits({"a", "b"}))), 1, 1);
    expect_forms("fields", single(three.message("M", {f, g})), 2, 2);
    expect_forms("enum variants", single(three.enumeration("E", items)), 6, 6);
    expect_forms("flag bits", single(three.flags("F", items)), 6, 6);
    Bytes v = three.variant(1, "v", {}), w = three.variant(2, "w", {});
    expect_forms("variants", single(three.union_of("U", {v, w})), 2, 2);
    Bytes wide = three.variant(1, "v", {f, g});
    expect_forms("a variant's fields", single(three.union_of("U", {wide})), 2, 2);
    expect_forms("tombstones stay", single(three.message("M", {}, 0, {1, 2, 3})), 1, 1);
    Bytes tomb = three.variant(1, "v", {}, {4, 5});
    expect_forms("a variant's stay", single(three.union_of("U", {tomb}, {6, 7})), 1, 1);
    Bytes a = one.trait("A"), b = one.trait("B");
    expect_forms("registry", one.image({}, {a, b, ""}, {}), 6, 6);
    expect_forms("listing", one.image({}, {one.impl(), one.impl()}, {0, 0, 1}), 6, 6);
    expect_forms("declarations and registry", one.listed({a, b}), 4, 4);
    expect_forms("an unresolvable id", one.image({}, {}, {7}), 20, 200);
    expect_forms("one in a type", one.image({}, {one.newtype("T", named(7))}, {}), 20, 200);
}

// All that can move does, over many seeds, and the reports stay.
void moves() {
    Bytes f = field(1, "a", named(3)), g = field(2, "b", named(9)), h = field(3, "c", named(0));
    Parts bodies = {three.message("M", {f, g, h}, 0, {5, 6}),
                    three.enumeration("E", {item(1, "x"), item(2, "y")}), "",
                    three.union_of("U", {three.variant(1, "v", {f, g}), three.variant(2, "w", {})}),
                    three.flags("F", {item(1, "p"), item(2, "q")}), three.impl(), three.impl()};
    Bytes image = three.image({"n"}, bodies, {0, 1, 3, 4, 5, 6, 2, 77});
    Bytes other = three.image({"m"}, {three.message("M", {g, field(4, "d", prim(0))}),
                                      three.flags("F", {item(2, "r"), item(3, "s")}, 2)},
                              {0, 1});
    Bytes first = report(JUDGE_FIRST, image, other), back = report(JUDGE_FIRST, other, image);
    size_t moved = 0;
    bool reports_stay = true, filed = true, again = true;
    for (uint64_t seed = 0; seed < 300; ++seed) {
        Bytes anew = refile(image, seed);
        moved += anew != image;
        filed = filed && accepts(anew) == 0 && repeats(anew) == 0 && refiled(image, anew) == 1 &&
                refiled(anew, image) == 1;
        again = again && refile(image, seed) == anew && refiled(refile(anew, seed), image) == 1;
        reports_stay = reports_stay && report(JUDGE_FIRST, anew, other) == first &&
                       report(JUDGE_FIRST, other, anew) == back;
    }
    expect("moved", moved > 290);
    expect("filed anew", filed);
    expect("by seed, and once more", again);
    expect("reports stay", reports_stay && first.size() > 300);
}

}  // namespace

void test_filing() {
    names();
    numbers();
    reordered();
    renumbered();
    shared_names();
    refused();
    each_way();
    moves();
}

}  // namespace test

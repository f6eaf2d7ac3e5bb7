// Refusals 1 to 10 of one image, and their order (01; R-6 and R-10 for formats).
#include "maker.hpp"

namespace test {

namespace {

const Maker one{1}, two{2}, three{3};

Bytes head(unsigned format, unsigned n, unsigned m, unsigned s) {
    return u16(format) + u16(n) + u16(m) + u16(s);
}

// A message with one field of the given rest after its name.
Bytes with_field(const Bytes &after_name) {
    return one.listed({one.message("A", {u32(0) + name("f") + after_name})});
}

Bytes with_type(const Bytes &type) { return one.listed({one.newtype("A", type)}); }

Bytes body(const Bytes &bytes) { return one.listed({bytes}); }

void heads() {
    expect_image("empty image", "", 2);
    expect_image("seven bytes", Bytes(7, '\0'), 2);
    expect_image("least image", head(1, 0, 0, 0), 0);
    expect_image("long", Bytes(32769, '\0'), 1);
    expect_image("longest is not long", Bytes(32768, '\0'), 3);
    expect_image("format 0", head(0, 0, 0, 0), 3);
    expect_image("format 2", head(2, 0, 0, 0), 0);
    expect_image("format 3", head(3, 0, 0, 0), 0);
    expect_image("format 4", head(4, 0, 0, 0), 3);
    expect_image("format 256", head(256, 0, 0, 0), 3);
    expect_image("format before crowded", head(9, 513, 0, 0), 3);
    expect_image("N crowded before short", head(1, 513, 0, 0), 4);
    expect_image("M crowded", head(1, 0, 513, 0), 4);
    expect_image("S crowded", head(1, 0, 0, 17), 4);
    expect_image("512 entries", head(1, 512, 0, 0) + Bytes(4 * 512, '\0'), 0);
    expect_image("513 entries", head(1, 513, 0, 0) + Bytes(4 * 513, '\0'), 4);
    expect_image("512 ids", head(1, 0, 512, 0) + Bytes(4 * 512, '\7'), 0);
    expect_image("16 segments", head(1, 0, 0, 16) + Bytes(16, '\0'), 0);
    expect_image("contents short", head(1, 1, 0, 0) + Bytes(3, '\0'), 2);
    expect_image("ids short", head(1, 0, 1, 0) + Bytes(3, '\0'), 2);
    expect_image("segment missing", head(1, 0, 0, 1), 2);
    expect_image("segment short", head(1, 0, 0, 1) + u8(2) + "a", 2);
    expect_image("segment letter", head(1, 0, 0, 1) + name("-"), 7);
    expect_image("segment length before letter", head(1, 0, 0, 1) + u8(2) + "-", 2);
    expect_image("first segment's letter first", head(1, 0, 0, 2) + name("-"), 7);
    expect_image("segment short before second's letter", head(1, 0, 0, 2) + name("a"), 2);
    expect_image("segment letter before contents", head(1, 1, 0, 1) + u32(1) + name("."), 7);
    expect_image("255 letters", head(1, 0, 0, 1) + name(Bytes(255, 'z')), 0);
    expect_image("all letters", head(1, 0, 0, 1) + name("azAZ09_"), 0);
    for (const char *odd : {"@", "[", "`", "{", "/", ":", "\x80", "\xff", ";", " ", "^"}) {
        expect_image(std::string("letter ") + odd, head(1, 0, 0, 1) + name(odd), 7);
    }
}

void contents() {
    Bytes impl = one.impl();
    expect_image("two bodies", one.listed({impl, impl}), 0);
    expect_image("empty entry between", one.image({}, {impl, "", impl}, {}), 0);
    expect_image("no body, bytes left", head(1, 0, 0, 0) + "x", 5);
    expect_image("empty entries, bytes left", head(1, 1, 0, 0) + u32(0) + "x", 5);
    expect_image("bytes after the last body", one.listed({impl}) + "x", 5);
    expect_image("gap before a body", head(1, 1, 0, 0) + u16(13) + u16(1) + "xx", 5);
    expect_image("gap, and past the end", head(1, 1, 0, 0) + u16(13) + u16(1) + impl, 5);
    expect_image("length, but no offset and no body", head(1, 1, 0, 0) + u16(0) + u16(1), 5);
    expect_image("body in the head", head(1, 1, 0, 0) + u16(11) + u16(1) + impl, 5);
    expect_image("length without offset", head(1, 1, 0, 0) + u16(0) + u16(1) + impl, 5);
    expect_image("offset without length", head(1, 1, 0, 0) + u16(12) + u16(0), 5);
    expect_image("body past the end", head(1, 1, 0, 0) + u16(12) + u16(2) + impl, 5);
    Bytes swapped = head(1, 2, 0, 0) + u16(17) + u16(1) + u16(16) + u16(1) + impl + impl;
    expect_image("bodies out of order", swapped, 5);
    Bytes twice = head(1, 2, 0, 0) + u16(16) + u16(1) + u16(16) + u16(1) + impl;
    expect_image("one body twice", twice, 5);
    expect_image("contents before kind", head(1, 1, 0, 0) + u16(12) + u16(1) + u8(9) + "x", 5);
    expect_image("u16 runs around", head(1, 2, 0, 0) + u16(16) + u16(65535) + u16(15) + u16(1),
                 5);
}

void bodies() {
    expect_image("kind 9", body(u8(9)), 6);
    expect_image("kind 255", body(u8(255)), 6);
    expect_image("first body's fault first", one.listed({u8(9), u8(0)}), 6);
    expect_image("second body's fault", one.listed({one.impl(), u8(0)}), 8);
    expect_image("impl with bytes left", body(u8(8) + "x"), 8);
    expect_image("message ends early", body(u8(0)), 8);
    expect_image("letter in a body", body(one.trait("a.b")), 7);
    expect_image("length before letter", body(u8(7) + u8(2) + "-"), 8);
    expect_image("marks 3", one.listed({one.message("A", {}, 3)}), 0);
    expect_image("marks 4", one.listed({one.message("A", {}, 4)}), 9);
    expect_image("enum marks 8", one.listed({one.enumeration("A", {}, 8)}), 9);
    expect_image("count beyond the bytes", body(u8(0) + name("A") + u8(0) + u16(65535)), 8);
    expect_image("half a count", body(u8(2) + name("A") + u8(0)), 8);
    expect_image("newtype with bytes left", with_type(prim(U8) + "x"), 8);
    expect_image("alias with bytes left", body(one.alias("A") + "x"), 8);
    expect_image("config", body(one.config("A")), 0);
    expect_image("half an ordinal", body(u8(1) + name("A") + u8(0) + u16(1) + Bytes(3, 'x')), 8);
    Bytes wide = one.union_of("U", {one.variant(1, "v", {field(0, "f", prim(U8))})});
    expect_image("union", body(wide), 0);
    expect_image("union ends early", body(wide.substr(0, wide.size() - 1)), 8);
}

void fields() {
    expect_image("field marks 4", with_field(u8(4)), 9);
    expect_image("encoding 4", with_field(u8(0) + u8(4)), 9);
    expect_image("8 deltas", with_field(u8(0) + times(8, u8(3)) + u8(2) + u8(0) + prim(0)), 0);
    expect_image("9 deltas", with_field(u8(0) + times(9, u8(3))), 10);
    expect_image("8 deltas and no more", with_field(u8(0) + times(8, u8(3))), 8);
    expect_image("8 deltas and 4", with_field(u8(0) + times(8, u8(3)) + u8(4)), 9);
    expect_image("limit 2", with_field(u8(0) + u8(0) + u8(2)), 9);
    expect_image("limit short", with_field(u8(0) + u8(0) + u8(1) + Bytes(7, '\0')), 8);
    expect_image("limit", with_field(limited(8) + prim(0)), 0);
    expect_image("field without type", with_field(u8(0) + u8(0) + u8(0)), 8);
}

void types() {
    expect_image("primitive 13", with_type(prim(13)), 0);
    expect_image("primitive 14", with_type(prim(14)), 9);
    expect_image("signed 2 before bits", with_type(u8(1) + u8(2)), 9);
    expect_image("0 bits", with_type(sub(0, 0)), 9);
    expect_image("64 bits", with_type(sub(1, 64)), 0);
    expect_image("65 bits", with_type(sub(1, 65)), 9);
    expect_image("semantic 5", with_type(sem(5)), 0);
    expect_image("semantic 6", with_type(sem(6)), 9);
    expect_image("any id", with_type(named(0xffffffff)), 0);
    expect_image("half an id", with_type(u8(3) + u16(0)), 8);
    expect_image("half a size", with_type(u8(6) + u32(0)), 8);
    expect_image("map of one", with_type(u8(8) + prim(0)), 8);
    expect_image("result", with_type(result(prim(0), sem(0))), 0);
    expect_image("tag 17", with_type(u8(17)), 9);
    expect_image("bits", with_type(bits({"a", ""})), 0);
    expect_image("bits letter", with_type(bits({"a", "-"})), 7);
    expect_image("bits short", with_type(u8(16) + u8(1)), 8);
    expect_image("32 nodes", with_type(times(31, u8(4)) + prim(0)), 0);
    expect_image("33 nodes", with_type(times(32, u8(4)) + prim(0)), 10);
    expect_image("33rd before its tag", with_type(times(32, u8(5)) + u8(99)), 10);
    expect_image("33rd before the end", with_type(times(32, u8(15))), 10);
    expect_image("32nd may be missing", with_type(times(31, u8(15))), 8);
    Bytes deep = times(31, u8(7)) + prim(0);
    expect_image("second of a map is 33rd", with_type(u8(8) + prim(0) + times(31, u8(4)) + u8(0)),
                 10);
    expect_image("depth is a path, not a sum", with_type(times(30, u8(4)) + map(prim(0), prim(0))),
                 0);
    expect_image("sizes take no depth", with_type(array(deep.substr(1), 3)), 0);
}

void formats() {
    expect_image("enum bits 0", two.listed({two.enumeration("E", {}, 0, 0)}), 0);
    expect_image("enum bits 255", two.listed({two.enumeration("E", {}, 0, 255)}), 0);
    for (unsigned width : {1u, 2u, 4u, 8u}) {
        expect_image("flags width", two.listed({two.flags("F", {}, width)}), 0);
        expect_image("flags width 3", three.listed({three.flags("F", {}, width)}), 0);
    }
    for (unsigned width : {0u, 3u, 5u, 16u, 255u}) {
        expect_image("no flags width", two.listed({two.flags("F", {}, width)}), 9);
    }
    expect_image("width before count", two.listed({u8(2) + name("F") + u8(3)}), 9);
    expect_image("width after name", two.listed({u8(2) + name("-") + u8(3)}), 7);
    expect_image("width missing", two.listed({u8(2) + name("F")}), 8);
    expect_image("enum marks before bits", two.listed({u8(1) + name("E") + u8(4)}), 9);
    expect_image("enum bits missing", two.listed({u8(1) + name("E") + u8(0)}), 8);
    expect_image("format 2 body in 1", one.listed({two.enumeration("E", {})}), 8);
    expect_image("format 1 body in 2", two.listed({one.enumeration("E", {})}), 8);
    expect_image("no tombstones in 2", two.listed({three.message("A", {})}), 8);
    expect_image("tombstone count missing", three.listed({two.message("A", {})}), 8);
    expect_image("tombstone short", three.listed({two.message("A", {}) + u16(1) + u16(0)}), 8);
    expect_image("tombstones", three.listed({three.message("A", {}, 0, {5, 5, 0xffffffff})}), 0);
    Bytes variant = three.variant(1, "v", {}, {4});
    expect_image("union's tombstones", three.listed({three.union_of("U", {variant}, {9})}), 0);
    expect_image("union's count missing", three.listed({two.union_of("U", {variant})}), 8);
    Bytes bare = two.variant(1, "v", {});
    expect_image("variant's count missing", three.listed({three.union_of("U", {bare})}), 8);
    expect_image("newtypes close with none", three.listed({three.newtype("T", prim(0))}), 0);
    expect_image("impls close with none", three.listed({three.impl() + u16(0)}), 8);
}

// The old image is judged whole before the new one.
void sides() {
    Bytes good = one.listed({one.trait("A")});
    Bytes late = one.listed({one.newtype("A", times(33, u8(4)))});
    expect_refused("old before new", JUDGE_FIRST, late, Bytes(32769, 'x'), 10, 1);
    expect_refused("new", JUDGE_FIRST, good, late, 10, 2);
    expect_number("null image", judge_verdict(JUDGE_FIRST, nullptr, 0, nullptr, 0, 0), 2);
    expect_number("null buffer", judge_report(JUDGE_FIRST, nullptr, 0, nullptr, 0, nullptr, 0), 0);
    expect_number("null accepts", uint64_t(judge_accepts(nullptr, 0)), 2);
    expect_number("null refile", judge_refile(nullptr, 0, 1, nullptr, 0), 0);
    uint64_t all = judge_all(JUDGE_MENDED, nullptr, 0, nullptr, 0, nullptr, 0, nullptr, 0, nullptr);
    expect_number("null all", all, 2);
    const uint8_t *bytes = reinterpret_cast<const uint8_t *>(good.data());
    uint64_t full = judge_report(JUDGE_FIRST, bytes, good.size(), bytes, good.size(), nullptr, 0);
    expect_number("12 on a null buffer", full, 0);
}

}  // namespace

void test_images() {
    heads();
    contents();
    bodies();
    fields();
    types();
    formats();
    sides();
}

}  // namespace test

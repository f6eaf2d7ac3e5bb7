// For the self test: images put together by hand, and the checks.
#pragma once

#include <cstdint>
#include <initializer_list>
#include <string>
#include <vector>

#include "judge.h"

namespace test {

using Bytes = std::string;
using Parts = std::vector<Bytes>;
using Numbers = std::vector<uint32_t>;

Bytes number(size_t width, uint64_t value);
inline Bytes u8(uint64_t v) { return number(1, v); }
inline Bytes u16(uint64_t v) { return number(2, v); }
inline Bytes u32(uint64_t v) { return number(4, v); }
inline Bytes u64(uint64_t v) { return number(8, v); }
Bytes name(const std::string &letters);
Bytes joined(const Parts &parts);
Bytes times(size_t count, const Bytes &part);

// Types.
const unsigned BOOL = 0, U8 = 1, U16 = 2, U32 = 3;
inline Bytes prim(unsigned code) { return u8(0) + u8(code); }
inline Bytes sub(unsigned sign, unsigned bits) { return u8(1) + u8(sign) + u8(bits); }
inline Bytes sem(unsigned code) { return u8(2) + u8(code); }
inline Bytes named(uint32_t id) { return u8(3) + u32(id); }
inline Bytes wrap(unsigned tag, const Bytes &inner) { return u8(tag) + inner; }
inline Bytes optional(const Bytes &inner) { return wrap(4, inner); }
inline Bytes array(const Bytes &inner) { return wrap(5, inner); }
inline Bytes array(const Bytes &inner, uint64_t size) { return u8(6) + u64(size) + inner; }
inline Bytes set(const Bytes &inner) { return wrap(7, inner); }
inline Bytes map(const Bytes &k, const Bytes &v) { return u8(8) + k + v; }
inline Bytes result(const Bytes &t, const Bytes &e) { return u8(9) + t + e; }
inline Bytes vec3(const Bytes &inner) { return wrap(11, inner); }
Bytes bits(const std::vector<std::string> &names);

// Fields, with what differs from the plain case put before the type.
const Bytes PLAIN = Bytes(3, '\0');  // no marks, default encoding, no limit
Bytes field(uint32_t ordinal, const std::string &letters, const Bytes &type,
            const Bytes &marks_encoding_limit = PLAIN);
inline Bytes marked(unsigned marks) { return u8(marks) + u8(0) + u8(0); }
inline Bytes encoded(const Bytes &encoding) { return u8(0) + encoding + u8(0); }
inline Bytes limited(uint64_t limit) { return u8(0) + u8(0) + u8(1) + u64(limit); }
inline Bytes item(uint32_t n, const std::string &letters) { return u32(n) + name(letters); }

// Bodies of one image format.
struct Maker {
    unsigned format;

    Bytes message(const std::string &letters, const Parts &fields, unsigned marks = 0,
                  const Numbers &struck = {}) const;
    Bytes enumeration(const std::string &letters, const Parts &items, unsigned marks = 0,
                      unsigned width = 8, const Numbers &struck = {}) const;
    Bytes flags(const std::string &letters, const Parts &items, unsigned width = 1,
                const Numbers &struck = {}) const;
    Bytes variant(uint32_t n, const std::string &letters, const Parts &fields,
                  const Numbers &struck = {}) const;
    Bytes union_of(const std::string &letters, const Parts &variants,
                   const Numbers &struck = {}) const;
    Bytes newtype(const std::string &letters, const Bytes &type) const;
    Bytes config(const std::string &letters) const { return u8(5) + name(letters); }
    Bytes alias(const std::string &letters) const { return u8(6) + name(letters); }
    Bytes trait(const std::string &letters) const { return u8(7) + name(letters); }
    Bytes impl() const { return u8(8); }

    // An image; an empty body is an empty entry.
    Bytes image(const std::vector<std::string> &segments, const Parts &bodies,
                const Numbers &ids) const;
    // All bodies listed in order, namespace `n`.
    Bytes listed(const Parts &bodies) const;

  private:
    Bytes counted(const Parts &parts) const { return u16(parts.size()) + joined(parts); }
    Bytes closing(const Numbers &struck) const;
};

// Checks; each counts as one.
extern int passed, failed;
void expect(const std::string &label, bool holds);
void expect_number(const std::string &label, uint64_t got, uint64_t wanted);
void expect_text(const std::string &label, const std::string &got, const std::string &wanted);

// The report, its length, bump, result and counts, and the short buffer.
void expect_report(const std::string &label, int which, const Bytes &old_image,
                   const Bytes &new_image, const std::string &lines, const std::string &last);
// A refusal leaves the buffer as it was.
void expect_refused(const std::string &label, int which, const Bytes &old_image,
                    const Bytes &new_image, uint64_t number, uint64_t side);
// The refusal of a single image by judge_accepts, and on both sides of a pair.
void expect_image(const std::string &label, const Bytes &image, int number);

// Calls on exact allocations.
uint64_t verdict(int which, const Bytes &old_image, const Bytes &new_image, uint64_t selector);
std::string report(int which, const Bytes &old_image, const Bytes &new_image);
int accepts(const Bytes &image);
int repeats(const Bytes &image);
Bytes refile(const Bytes &image, uint64_t seed);
int refiled(const Bytes &a, const Bytes &b);

// The parts of the test.
void test_images();
void test_clauses();
void test_imports();
void test_mended();
void test_filing();
void test_random();

}  // namespace test

// Self test of the judge: pairs made by hand from the sentences of 01 and 02.
#include <algorithm>
#include <cstdio>
#include <cstring>
#include <memory>

#include "maker.hpp"

namespace test {

int passed = 0, failed = 0;

// ---- bytes ----

Bytes number(size_t width, uint64_t value) {
    Bytes out;
    for (size_t i = 0; i < width; ++i) out += char(uint8_t(value >> (8 * i)));
    return out;
}

Bytes name(const std::string &letters) { return u8(letters.size()) + letters; }

Bytes joined(const Parts &parts) {
    Bytes out;
    for (const Bytes &part : parts) out += part;
    return out;
}

Bytes times(size_t count, const Bytes &part) {
    Bytes out;
    for (size_t i = 0; i < count; ++i) out += part;
    return out;
}

Bytes bits(const std::vector<std::string> &names) {
    Bytes out = u8(16) + u8(names.size());
    for (const std::string &one : names) out += name(one);
    return out;
}

Bytes field(uint32_t ordinal, const std::string &letters, const Bytes &type,
            const Bytes &marks_encoding_limit) {
    return u32(ordinal) + name(letters) + marks_encoding_limit + type;
}

Bytes Maker::closing(const Numbers &struck) const {
    if (format < 3) return Bytes();
    Bytes out = u16(struck.size());
    for (uint32_t one : struck) out += u32(one);
    return out;
}

Bytes Maker::message(const std::string &letters, const Parts &fields, unsigned marks,
                     const Numbers &struck) const {
    return u8(0) + name(letters) + u8(marks) + counted(fields) + closing(struck);
}

Bytes Maker::enumeration(const std::string &letters, const Parts &items, unsigned marks,
                         unsigned width, const Numbers &struck) const {
    Bytes bytes = u8(1) + name(letters) + u8(marks);
    if (format >= 2) bytes += u8(width);
    return bytes + counted(items) + closing(struck);
}

Bytes Maker::flags(const std::string &letters, const Parts &items, unsigned width,
                   const Numbers &struck) const {
    Bytes bytes = u8(2) + name(letters);
    if (format >= 2) bytes += u8(width);
    return bytes + counted(items) + closing(struck);
}

Bytes Maker::variant(uint32_t n, const std::string &letters, const Parts &fields,
                     const Numbers &struck) const {
    return u32(n) + name(letters) + counted(fields) + closing(struck);
}

Bytes Maker::union_of(const std::string &letters, const Parts &variants,
                      const Numbers &struck) const {
    return u8(3) + name(letters) + counted(variants) + closing(struck);
}

Bytes Maker::newtype(const std::string &letters, const Bytes &type) const {
    return u8(4) + name(letters) + type;
}

Bytes Maker::image(const std::vector<std::string> &segments, const Parts &bodies,
                   const Numbers &ids) const {
    Bytes middle;
    for (uint32_t id : ids) middle += u32(id);
    for (const std::string &segment : segments) middle += name(segment);
    Bytes out = u16(format) + u16(bodies.size()) + u16(ids.size()) + u16(segments.size());
    size_t next = 8 + 4 * bodies.size() + middle.size();
    for (const Bytes &body : bodies) {
        out += u16(body.empty() ? 0 : next) + u16(body.size());
        next += body.size();
    }
    return out + middle + joined(bodies);
}

Bytes Maker::listed(const Parts &bodies) const {
    Numbers ids;
    for (uint32_t id = 0; id < bodies.size(); ++id) ids.push_back(id);
    return image({"n"}, bodies, ids);
}

// ---- calls ----

namespace {

// Exact allocations, so that a read or write outside shows under the sanitizer.
struct Lent {
    std::unique_ptr<uint8_t[]> bytes;
    size_t len;

    explicit Lent(const Bytes &from) : bytes(new uint8_t[from.size()]), len(from.size()) {
        std::copy(from.begin(), from.end(), bytes.get());
    }
    Bytes text() const { return Bytes(reinterpret_cast<const char *>(bytes.get()), len); }
};

size_t write_report(int which, const Bytes &old_image, const Bytes &new_image, Lent &out) {
    Lent o(old_image), n(new_image);
    return judge_report(which, o.bytes.get(), o.len, n.bytes.get(), n.len, out.bytes.get(),
                        out.len);
}

}  // namespace

uint64_t verdict(int which, const Bytes &old_image, const Bytes &new_image, uint64_t selector) {
    Lent o(old_image), n(new_image);
    return judge_verdict(which, o.bytes.get(), o.len, n.bytes.get(), n.len, selector);
}

std::string report(int which, const Bytes &old_image, const Bytes &new_image) {
    Lent out(Bytes(size_t(verdict(which, old_image, new_image, 4)), '?'));
    size_t length = write_report(which, old_image, new_image, out);
    return out.text().substr(0, length);
}

int accepts(const Bytes &image) {
    Lent one(image);
    return judge_accepts(one.bytes.get(), one.len);
}

int repeats(const Bytes &image) {
    Lent one(image);
    return judge_repeats(one.bytes.get(), one.len);
}

Bytes refile(const Bytes &image, uint64_t seed) {
    Lent one(image), out(Bytes(image.size(), '?'));
    size_t length = judge_refile(one.bytes.get(), one.len, seed, out.bytes.get(), out.len);
    return out.text().substr(0, length);
}

int refiled(const Bytes &a, const Bytes &b) {
    Lent one(a), other(b);
    return judge_refiled(one.bytes.get(), one.len, other.bytes.get(), other.len);
}

// ---- checks ----

void expect(const std::string &label, bool holds) {
    if (holds) {
        ++passed;
        return;
    }
    ++failed;
    std::printf("failed: %s\n", label.c_str());
}

void expect_number(const std::string &label, uint64_t got, uint64_t wanted) {
    bool same = got == wanted;
    expect(same ? label
                : label + ": got " + std::to_string(got) + ", wanted " + std::to_string(wanted),
           same);
}

void expect_text(const std::string &label, const std::string &got, const std::string &wanted) {
    expect(got == wanted ? label : label + ":\n" + got + "wanted\n" + wanted, got == wanted);
}

namespace {

const std::vector<std::string> KINDS = {
    "FieldAdded",       "FieldRemoved",        "FieldTypeChanged",
    "FieldOrdinalChanged", "FieldRenamed",     "FieldDeprecated",
    "FieldEncodingChanged", "VariantAdded",    "VariantRemoved",
    "VariantOrdinalChanged", "DeclarationAdded", "DeclarationRemoved",
    "DeclarationKindChanged", "NamespaceChanged", "NonExhaustiveChanged",
    "FlagsBitAdded",    "FlagsBitRemoved",     "FlagsBitOrdinalChanged",
    "WidthChanged",     "TombstoneReused",     "TombstoneDropped"};

// How many lines start with a kind's word.
uint64_t lines_of(const std::string &text, const std::string &kind) {
    uint64_t count = 0;
    for (size_t at = 0; at < text.size(); at = text.find('\n', at) + 1) {
        if (text.compare(at, kind.size() + 1, kind + ";") == 0) ++count;
    }
    return count;
}

// What the selectors must give, told from the report's text.
std::vector<uint64_t> values_of(const std::string &lines, const std::string &last) {
    uint64_t bump = last.find(";Major;") != Bytes::npos   ? 2
                    : last.find(";Minor;") != Bytes::npos ? 1
                                                          : 0;
    std::vector<uint64_t> values = {0, 0, bump, last.compare(0, 9, "Breaking;") == 0,
                                    lines.size() + last.size() + 1};
    for (const std::string &kind : KINDS) values.push_back(lines_of(lines, kind));
    values.resize(40, 0);
    return values;
}

// judge_all and judge_verdict give the wanted values and report.
bool all_agree(int which, const Bytes &old_image, const Bytes &new_image,
               const std::vector<uint64_t> &wanted, const std::string &text) {
    Lent o(old_image), n(new_image), out(Bytes(text.size(), '?'));
    std::vector<uint64_t> values(wanted.size(), 77);
    size_t written = 99;
    uint64_t number =
        judge_all(which, o.bytes.get(), o.len, n.bytes.get(), n.len, values.data(), values.size(),
                  out.bytes.get(), out.len, &written);
    bool same = number == wanted[0] && values == wanted && written == text.size();
    for (size_t i = 0; i < wanted.size(); ++i) {
        same = same && verdict(which, old_image, new_image, i) == wanted[i];
    }
    same = same && verdict(which, old_image, new_image, UINT64_MAX) == 0;
    return same && out.text() == text;
}

}  // namespace

void expect_report(const std::string &label, int which, const Bytes &old_image,
                   const Bytes &new_image, const std::string &lines, const std::string &last) {
    std::string text = lines + last + "\n";
    expect_text(label, report(which, old_image, new_image), text);
    expect(label + ": values",
           all_agree(which, old_image, new_image, values_of(lines, last), text));
    Lent wider(Bytes(text.size() + 3, '?')), shorter(Bytes(text.size() - 1, '?'));
    bool held = write_report(which, old_image, new_image, wider) == text.size() &&
                wider.text() == text + "???";
    bool refused = write_report(which, old_image, new_image, shorter) == 0 &&
                   shorter.text() == Bytes(text.size() - 1, '?');
    expect(label + ": buffers", held && refused);
}

void expect_refused(const std::string &label, int which, const Bytes &old_image,
                    const Bytes &new_image, uint64_t number, uint64_t side) {
    expect_number(label + ": number", verdict(which, old_image, new_image, 0), number);
    expect_number(label + ": side", verdict(which, old_image, new_image, 1), side);
    std::vector<uint64_t> wanted = {number, side, 2, 1};
    wanted.resize(40, 0);
    Lent out(Bytes(65536, '?'));
    bool untouched = write_report(which, old_image, new_image, out) == 0 &&
                     out.text() == Bytes(65536, '?');
    expect(label + ": rest", untouched && all_agree(which, old_image, new_image, wanted, ""));
}

void expect_image(const std::string &label, const Bytes &image, int number) {
    expect_number(label, uint64_t(accepts(image)), uint64_t(number));
    Bytes good = Maker{1}.image({}, {}, {});
    if (number == 0) return;
    expect_refused(label + " as old", JUDGE_FIRST, image, good, uint64_t(number), 1);
    expect_refused(label + " as new", JUDGE_IMPORTS, good, image, uint64_t(number), 2);
    expect_refused(label + " as both", JUDGE_MENDED, image, image, uint64_t(number), 1);
}

}  // namespace test

int main() {
    test::test_images();
    test::test_clauses();
    test::test_imports();
    test::test_mended();
    test::test_filing();
    test::test_random();
    std::printf("%d passed, %d failed\n", test::passed, test::failed);
    return test::failed == 0 ? 0 : 1;
}

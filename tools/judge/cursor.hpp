// Reading bytes from left to right; the first fault met stays.
#pragma once

#include "image.hpp"

namespace judge {

struct Cursor {
    const uint8_t *at;
    const uint8_t *end;
    int ends_early;  // the number given when the bytes run out
    int fault = 0;

    size_t left() const { return size_t(end - at); }

    bool fail(int number) {
        fault = number;
        return false;
    }

    bool number(size_t width, uint64_t &value) {
        if (left() < width) return fail(ends_early);
        value = 0;
        for (size_t i = 0; i < width; ++i) value |= uint64_t(at[i]) << (8 * i);
        at += width;
        return true;
    }

    bool u8(uint8_t &value) {
        if (at == end) return fail(ends_early);
        value = *at++;
        return true;
    }

    // A coded byte of at most `last`.
    bool code(uint8_t last, uint8_t &value) {
        if (!u8(value)) return false;
        return value <= last || fail(CODE);
    }

    bool u16(uint16_t &value) {
        uint64_t wide = 0;
        if (!number(2, wide)) return false;
        value = uint16_t(wide);
        return true;
    }

    bool u32(uint32_t &value) {
        uint64_t wide = 0;
        if (!number(4, wide)) return false;
        value = uint32_t(wide);
        return true;
    }

    bool u64(uint64_t &value) { return number(8, value); }

    // The length comes before the letters, in order of faults too.
    bool name(Name &value) {
        uint8_t length = 0;
        if (!u8(length)) return false;
        if (left() < length) return fail(ends_early);
        for (size_t i = 0; i < length; ++i) {
            if (!is_letter(at[i])) return fail(NAME);
        }
        value = Name(reinterpret_cast<const char *>(at), length);
        at += length;
        return true;
    }

    static bool is_letter(uint8_t c) {
        return (c >= '0' && c <= '9') || (c >= 'A' && c <= 'Z') || (c >= 'a' && c <= 'z') ||
               c == '_';
    }
};

// Reads the body of one entry, all of the cursor's bytes.
bool read_body(Cursor &in, Image &image, Entry &entry);

// Reads one type.
bool read_type(Cursor &in, Image &image, Type &type);

}  // namespace judge

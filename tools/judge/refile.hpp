// the premise, filing anew, and whether one image is another filed anew.
#pragma once

#include "image.hpp"

namespace judge {

// Two resolvable declarations share a name (impls among themselves excepted),
// or two fields, variants or bits of one body or variant share a number.
bool has_repeats(const Image &image);

// The bytes of an image filed anew at random.
std::string file_anew(const Image &image, uint64_t seed);

// Both images are accepted and without repeats.
bool is_filed_anew(const Image &a, const Image &b);

// Hands every type of an entry to a function, in the order of the body.
template <class Function>
void each_type(const Entry &entry, Function take) {
    if (entry.kind == NEWTYPE) take(entry.type);
    for (const Field &field : entry.fields) take(field.type);
    for (const Variant &variant : entry.variants) {
        for (const Field &field : variant.fields) take(field.type);
    }
}

}  // namespace judge

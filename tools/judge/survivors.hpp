// Which of several declarations of one name, or numbers of one body, counts:
// the last listed. Both kinds of survivors are given in rising order.
#pragma once

#include <algorithm>

#include "image.hpp"

namespace judge {

// Survivors of a list of fields, variants or bits, by number.
template <class Listed>
std::vector<const Listed *> survivors(const std::vector<Listed> &listed) {
    std::vector<const Listed *> all;
    all.reserve(listed.size());
    for (const Listed &one : listed) all.push_back(&one);
    std::sort(all.begin(), all.end(), [](const Listed *a, const Listed *b) {
        return a->number != b->number ? a->number < b->number : a < b;
    });
    size_t kept = 0;
    for (size_t i = 0; i < all.size(); ++i) {
        bool last_of_its_number = i + 1 == all.size() || all[i + 1]->number != all[i]->number;
        if (last_of_its_number) all[kept++] = all[i];
    }
    all.resize(kept);
    return all;
}

// The survivor of that number, null if there is none.
template <class Listed>
const Listed *find(const std::vector<const Listed *> &survivors, uint32_t number) {
    auto found = std::lower_bound(
        survivors.begin(), survivors.end(), number,
        [](const Listed *one, uint32_t wanted) { return one->number < wanted; });
    if (found == survivors.end() || (*found)->number != number) return nullptr;
    return *found;
}

using Declarations = std::vector<const Entry *>;

// The entries that stand of a list of ids: unresolvable ids are skipped, of one
// name the last listed stands.
Declarations standing(const Image &image, const std::vector<uint32_t> &ids);

const Entry *find(const Declarations &declarations, Name name);

}  // namespace judge

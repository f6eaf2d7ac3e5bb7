#include "refile.hpp"

#include <algorithm>
#include <set>
#include <utility>

#include "write.hpp"

namespace judge {

// ---- the premise ----

namespace {

template <class Listed>
bool share_a_number(const std::vector<Listed> &listed) {
    std::vector<uint32_t> numbers;
    for (const Listed &one : listed) numbers.push_back(one.number);
    std::sort(numbers.begin(), numbers.end());
    return std::adjacent_find(numbers.begin(), numbers.end()) != numbers.end();
}

bool share_a_number(const Entry &entry) {
    if (share_a_number(entry.fields) || share_a_number(entry.items)) return true;
    if (share_a_number(entry.variants)) return true;
    return std::any_of(entry.variants.begin(), entry.variants.end(),
                       [](const Variant &variant) { return share_a_number(variant.fields); });
}

// A declaration listed twice is still one declaration.
bool share_a_name(const Image &image) {
    std::set<uint32_t> declared;
    for (uint32_t id : image.ids) {
        if (image.resolve(id)) declared.insert(id);
    }
    bool impl_seen = false;
    std::set<Name> names;
    for (uint32_t id : declared) {
        const Entry &entry = *image.resolve(id);
        if (entry.kind == IMPL && std::exchange(impl_seen, true)) continue;
        if (!names.insert(entry.name).second) return true;
    }
    return false;
}

}  // namespace

bool has_repeats(const Image &image) {
    if (share_a_name(image)) return true;
    return std::any_of(image.entries.begin(), image.entries.end(),
                       [](const Entry &entry) { return share_a_number(entry); });
}

// ---- filing anew ----

namespace {

// splitmix64
struct Dice {
    uint64_t state;

    uint64_t next() {
        uint64_t z = (state += 0x9e3779b97f4a7c15u);
        z = (z ^ (z >> 30)) * 0xbf58476d1ce4e5b9u;
        z = (z ^ (z >> 27)) * 0x94d049bb133111ebu;
        return z ^ (z >> 31);
    }

    size_t below(size_t bound) { return size_t(next() % bound); }

    template <class Any>
    void shuffle(std::vector<Any> &list) {
        for (size_t i = list.size(); i > 1; --i) std::swap(list[i - 1], list[below(i)]);
    }
};

// The registry renumbered: the new number of every entry, and the empty ones.
struct Numbering {
    std::vector<uint32_t> anew;
    std::vector<uint32_t> empty;
};

Numbering renumber(const Image &image, Dice &dice) {
    Numbering numbering;
    for (uint32_t id = 0; id < image.entries.size(); ++id) numbering.anew.push_back(id);
    dice.shuffle(numbering.anew);
    for (uint32_t id = 0; id < image.entries.size(); ++id) {
        if (!image.entries[id].present) numbering.empty.push_back(numbering.anew[id]);
    }
    return numbering;
}

// Any id that is unresolvable after the renumbering.
uint32_t unresolvable_id(const Numbering &numbering, Dice &dice) {
    uint32_t count = uint32_t(numbering.anew.size());
    if (!numbering.empty.empty() && dice.below(2) == 0) {
        return numbering.empty[dice.below(numbering.empty.size())];
    }
    switch (dice.below(3)) {
        case 0: return count;
        case 1: return UINT32_MAX;
        default: return count + uint32_t(dice.below(UINT32_MAX - count));
    }
}

uint32_t follow(const Image &image, uint32_t id, const Numbering &numbering, Dice &dice) {
    if (image.resolve(id)) return numbering.anew[id];
    return unresolvable_id(numbering, dice);
}

// Tombstones stay where they are.
void shuffle_entry(Entry &entry, Dice &dice) {
    dice.shuffle(entry.fields);
    dice.shuffle(entry.items);
    dice.shuffle(entry.variants);
    for (Variant &variant : entry.variants) dice.shuffle(variant.fields);
}

}  // namespace

std::string file_anew(const Image &image, uint64_t seed) {
    Dice dice{seed};
    Numbering numbering = renumber(image, dice);
    Image filed = image;
    for (uint32_t &id : filed.ids) id = follow(image, id, numbering, dice);
    dice.shuffle(filed.ids);
    for (Node &node : filed.nodes) {
        if (node.tag != NAMED) continue;
        node.number = follow(image, uint32_t(node.number), numbering, dice);
    }
    for (size_t id = 0; id < image.entries.size(); ++id) {
        Entry &entry = filed.entries[numbering.anew[id]];
        entry = image.entries[id];
        shuffle_entry(entry, dice);
    }
    return write_image(filed);
}

}  // namespace judge

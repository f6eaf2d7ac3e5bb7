#include "survivors.hpp"

namespace judge {

namespace {

struct ListedName {
    Name name;
    size_t place;
    const Entry *entry;
};

bool before(const ListedName &a, const ListedName &b) {
    int order = a.name.compare(b.name);
    return order != 0 ? order < 0 : a.place < b.place;
}

}  // namespace

Declarations standing(const Image &image, const std::vector<uint32_t> &ids) {
    std::vector<ListedName> all;
    all.reserve(ids.size());
    for (size_t place = 0; place < ids.size(); ++place) {
        const Entry *entry = image.resolve(ids[place]);
        if (entry) all.push_back({entry->name, place, entry});
    }
    std::sort(all.begin(), all.end(), before);
    Declarations stand;
    stand.reserve(all.size());
    for (size_t i = 0; i < all.size(); ++i) {
        bool last_of_its_name = i + 1 == all.size() || all[i + 1].name != all[i].name;
        if (last_of_its_name) stand.push_back(all[i].entry);
    }
    return stand;
}

const Entry *find(const Declarations &declarations, Name name) {
    auto found =
        std::lower_bound(declarations.begin(), declarations.end(), name,
                         [](const Entry *entry, Name wanted) { return entry->name < wanted; });
    if (found == declarations.end() || (*found)->name != name) return nullptr;
    return *found;
}

}  // namespace judge

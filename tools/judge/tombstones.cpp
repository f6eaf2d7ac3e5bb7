#include "tombstones.hpp"

namespace judge {

namespace {

// Rising and each once: repeated tombstones count as one.
std::vector<uint32_t> each_once(std::vector<uint32_t> numbers) {
    std::sort(numbers.begin(), numbers.end());
    numbers.erase(std::unique(numbers.begin(), numbers.end()), numbers.end());
    return numbers;
}

bool holds(const std::vector<uint32_t> &rising, uint32_t number) {
    return std::binary_search(rising.begin(), rising.end(), number);
}

void add(Change kind, Name declaration, uint32_t number, Name what, Report &report) {
    report.add(kind, MAJOR, declaration, {"tombstone @", std::to_string(number), " was ", what});
}

}  // namespace

void compare_tombstones(Name declaration, const std::vector<uint32_t> &old_struck,
                        const std::vector<uint32_t> &new_struck,
                        const std::vector<uint32_t> &used, Report &report) {
    if (old_struck.empty()) return;
    std::vector<uint32_t> before = each_once(old_struck);
    std::vector<uint32_t> after = each_once(new_struck);
    for (uint32_t number : before) {
        if (holds(used, number)) add(TOMBSTONE_REUSED, declaration, number, "reused", report);
    }
    for (uint32_t number : before) {
        if (holds(used, number) || holds(after, number)) continue;
        add(TOMBSTONE_DROPPED, declaration, number, "dropped", report);
    }
}

}  // namespace judge

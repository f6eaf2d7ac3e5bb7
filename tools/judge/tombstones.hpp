// numbers struck off in the old side, last in a declaration or variant.
#pragma once

#include "report.hpp"
#include "survivors.hpp"

namespace judge {

// Numbers used, rising.
template <class Listed>
std::vector<uint32_t> used_numbers(const std::vector<const Listed *> &survivors) {
    std::vector<uint32_t> numbers;
    numbers.reserve(survivors.size());
    for (const Listed *one : survivors) numbers.push_back(one->number);
    return numbers;
}

// `used` are the numbers used on the new side, rising.
void compare_tombstones(Name declaration, const std::vector<uint32_t> &old_struck,
                        const std::vector<uint32_t> &new_struck,
                        const std::vector<uint32_t> &used, Report &report);

}  // namespace judge

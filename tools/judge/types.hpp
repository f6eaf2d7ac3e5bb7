// Comparing and showing types (01, R-5).
#pragma once

#include "image.hpp"

namespace judge {

// The third answer: equal but for holding vectors, quaternions or matrices.
enum class Likeness { EQUAL, DIFFERENT, ALIKE };

Likeness compare_types(const Image &old_image, Type old_type, const Image &new_image,
                       Type new_type);

std::string show_type(const Image &image, Type type);

}  // namespace judge

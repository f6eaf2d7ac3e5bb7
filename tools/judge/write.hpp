// Writing an image that was read, byte for byte as the format has it.
#pragma once

#include "image.hpp"

namespace judge {

std::string write_body(const Image &image, const Entry &entry);

std::string write_image(const Image &image);

}  // namespace judge

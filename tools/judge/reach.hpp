// What stands in a verdict: 01's survivors, or with imports also the
// entries reached through named nodes.
#pragma once

#include "survivors.hpp"

namespace judge {

Declarations standing_with_imports(const Image &image);

}  // namespace judge

// The clauses of 01, with what add in the mended verdict.
#pragma once

#include "report.hpp"
#include "survivors.hpp"

namespace judge {

// One comparison: both images, what stands in them, and where changes go.
struct Comparison {
    const Image &old_image;
    const Image &new_image;
    bool mended;
    const Declarations &old_declarations;
    const Declarations &new_declarations;
    Report &report;
};

// 11: a name stands as a generic alias on both sides.
bool alias_pair(const Declarations &old_declarations, const Declarations &new_declarations);

// All clauses in order, without the report's last line.
void compare(const Comparison &in);

}  // namespace judge

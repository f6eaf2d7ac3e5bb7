// Is there a renumbering that takes one graph of entries to the other?
#pragma once

#include <cstddef>
#include <cstdint>
#include <vector>

namespace judge {

// A named node: where it stands in its entry, and the entry that it points to.
struct Edge {
    uint32_t place;
    uint32_t target;
};

struct Graph {
    std::vector<uint32_t> colours;         // entries that match have one colour
    std::vector<std::vector<Edge>> edges;  // of each entry, places rising

    size_t size() const { return colours.size(); }
};

// Whether a renumbering keeps every colour and every edge.
bool can_renumber(Graph a, Graph b);

}  // namespace judge

// Colours are split until nothing splits; an entry alone in its colour is then
// settled. What is left falls into parts that can be paired one by one, since
// two parts that match a third match each other. In a part one entry is tried
// against each of its colour.
#include "renumbering.hpp"

#include <algorithm>
#include <map>
#include <utility>

namespace judge {

namespace {

using Key = std::vector<uint32_t>;

// An entry's key: its colour, the places and colours of its targets, and those
// of the entries that point to it.
std::vector<Key> keys_of(const Graph &graph) {
    std::vector<Key> keys(graph.size());
    std::vector<std::vector<std::pair<uint32_t, uint32_t>>> sources(graph.size());
    for (size_t i = 0; i < graph.size(); ++i) {
        keys[i] = {graph.colours[i], uint32_t(graph.edges[i].size())};
        for (Edge edge : graph.edges[i]) {
            keys[i].push_back(edge.place);
            keys[i].push_back(graph.colours[edge.target]);
            sources[edge.target].emplace_back(graph.colours[i], edge.place);
        }
    }
    for (size_t i = 0; i < graph.size(); ++i) {
        std::sort(sources[i].begin(), sources[i].end());
        for (auto source : sources[i]) {
            keys[i].push_back(source.first);
            keys[i].push_back(source.second);
        }
    }
    return keys;
}

size_t colours_of(const Graph &graph) {
    std::vector<uint32_t> all = graph.colours;
    std::sort(all.begin(), all.end());
    return size_t(std::unique(all.begin(), all.end()) - all.begin());
}

// New colours, one for each different key of the two graphs.
void recolour(Graph &a, Graph &b) {
    std::map<Key, uint32_t> numbers;
    for (Graph *graph : {&a, &b}) {
        std::vector<Key> keys = keys_of(*graph);
        for (size_t i = 0; i < keys.size(); ++i) {
            graph->colours[i] = numbers.emplace(keys[i], uint32_t(numbers.size())).first->second;
        }
    }
}

bool same_colours(const Graph &a, const Graph &b) {
    std::vector<uint32_t> x = a.colours, y = b.colours;
    std::sort(x.begin(), x.end());
    std::sort(y.begin(), y.end());
    return x == y;
}

// Splits colours until nothing splits; false if the graphs are told apart.
bool refine(Graph &a, Graph &b) {
    size_t before = 0;
    while (colours_of(a) != before) {
        before = colours_of(a);
        recolour(a, b);
        if (!same_colours(a, b)) return false;
    }
    return true;
}

// The graph of some entries, with the edges among them.
Graph part_of(const Graph &graph, const std::vector<uint32_t> &entries) {
    std::vector<uint32_t> place(graph.size(), UINT32_MAX);
    for (uint32_t i = 0; i < entries.size(); ++i) place[entries[i]] = i;
    Graph part;
    for (uint32_t entry : entries) {
        part.colours.push_back(graph.colours[entry]);
        part.edges.emplace_back();
        for (Edge edge : graph.edges[entry]) {
            if (place[edge.target] == UINT32_MAX) continue;
            part.edges.back().push_back({edge.place, place[edge.target]});
        }
    }
    return part;
}

// The entries that share their colour with another.
std::vector<uint32_t> unsettled(const Graph &graph) {
    std::map<uint32_t, uint32_t> sizes;
    for (uint32_t one : graph.colours) ++sizes[one];
    std::vector<uint32_t> entries;
    for (uint32_t i = 0; i < graph.size(); ++i) {
        if (sizes[graph.colours[i]] > 1) entries.push_back(i);
    }
    return entries;
}

// The connected parts, edges taken both ways.
std::vector<Graph> parts_of(const Graph &graph) {
    std::vector<std::vector<uint32_t>> beside(graph.size());
    for (uint32_t i = 0; i < graph.size(); ++i) {
        for (Edge edge : graph.edges[i]) {
            beside[i].push_back(edge.target);
            beside[edge.target].push_back(i);
        }
    }
    std::vector<bool> seen(graph.size(), false);
    std::vector<Graph> parts;
    for (uint32_t start = 0; start < graph.size(); ++start) {
        if (seen[start]) continue;
        std::vector<uint32_t> entries = {start};
        seen[start] = true;
        for (size_t at = 0; at < entries.size(); ++at) {
            for (uint32_t next : beside[entries[at]]) {
                if (seen[next]) continue;
                seen[next] = true;
                entries.push_back(next);
            }
        }
        parts.push_back(part_of(graph, entries));
    }
    return parts;
}

// Two connected parts: the first entry of one against each of its colour.
bool match_parts(const Graph &a, const Graph &b) {
    if (!same_colours(a, b)) return false;
    uint32_t wanted = a.colours[0];
    for (size_t i = 0; i < b.size(); ++i) {
        if (b.colours[i] != wanted) continue;
        Graph x = a, y = b;
        x.colours[0] = y.colours[i] = UINT32_MAX;
        if (can_renumber(x, y)) return true;
    }
    return false;
}

}  // namespace

bool can_renumber(Graph a, Graph b) {
    if (!same_colours(a, b) || !refine(a, b)) return false;
    std::vector<Graph> a_parts = parts_of(part_of(a, unsettled(a)));
    std::vector<Graph> b_parts = parts_of(part_of(b, unsettled(b)));
    for (const Graph &part : a_parts) {
        auto partner = std::find_if(b_parts.begin(), b_parts.end(), [&](const Graph &other) {
            return match_parts(part, other);
        });
        if (partner == b_parts.end()) return false;
        b_parts.erase(partner);
    }
    return b_parts.empty();
}

}  // namespace judge

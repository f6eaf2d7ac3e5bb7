// Is image b image a filed anew? All that filing must keep is put into a fixed
// order and compared; the renumbering of the registry is searched for.
#include <algorithm>
#include <map>

#include "refile.hpp"
#include "renumbering.hpp"
#include "write.hpp"

namespace judge {

namespace {

template <class Listed>
void sort_by_number(std::vector<Listed> &listed) {
    std::sort(listed.begin(), listed.end(),
              [](const Listed &a, const Listed &b) { return a.number < b.number; });
}

void sort_entry(Entry &entry) {
    sort_by_number(entry.fields);
    sort_by_number(entry.items);
    sort_by_number(entry.variants);
    for (Variant &variant : entry.variants) sort_by_number(variant.fields);
}

// The image with the items of every entry in rising order.
Image sorted(const Image &image) {
    Image copy = image;
    for (Entry &entry : copy.entries) sort_entry(entry);
    return copy;
}

// The same with ids blanked: 0 for one that resolves, 1 for one that does not.
Image blanked(const Image &image) {
    Image copy = image;
    for (Node &node : copy.nodes) {
        if (node.tag == NAMED) node.number = image.resolve(node.number) ? 0 : 1;
    }
    return copy;
}

// Numbers given to the entries that are not empty, in id order.
std::vector<uint32_t> ranks(const Image &image) {
    std::vector<uint32_t> rank(image.entries.size(), 0);
    uint32_t present = 0;
    for (size_t id = 0; id < rank.size(); ++id) {
        if (image.entries[id].present) rank[id] = present++;
    }
    return rank;
}

std::vector<Edge> edges_of(const Image &image, const Entry &entry,
                           const std::vector<uint32_t> &rank) {
    std::vector<Edge> edges;
    uint32_t place = 0;
    each_type(entry, [&](Type type) {
        for (uint32_t i = type.begin; i < type.end; ++i, ++place) {
            const Node &node = image.nodes[i];
            if (node.tag != NAMED || !image.resolve(node.number)) continue;
            edges.push_back({place, rank[node.number]});
        }
    });
    return edges;
}

// How often an entry is listed, and its bytes without ids.
using Look = std::pair<uint32_t, std::string>;

// Entries get one colour if they look alike.
Graph graph_of(const Image &image, std::map<Look, uint32_t> &looks) {
    Image blank = blanked(image);
    std::vector<uint32_t> rank = ranks(image);
    std::vector<uint32_t> listed(image.entries.size(), 0);
    for (uint32_t id : image.ids) {
        if (image.resolve(id)) ++listed[id];
    }
    Graph graph;
    for (size_t id = 0; id < image.entries.size(); ++id) {
        const Entry &entry = image.entries[id];
        if (!entry.present) continue;
        Look look(listed[id], write_body(blank, entry));
        graph.colours.push_back(looks.emplace(look, uint32_t(looks.size())).first->second);
        graph.edges.push_back(edges_of(image, entry, rank));
    }
    return graph;
}

}  // namespace

bool is_filed_anew(const Image &a, const Image &b) {
    if (a.format != b.format || a.segments != b.segments) return false;
    if (a.entries.size() != b.entries.size() || a.ids.size() != b.ids.size()) return false;
    std::map<Look, uint32_t> looks;
    Graph one = graph_of(sorted(a), looks), other = graph_of(sorted(b), looks);
    return can_renumber(one, other);
}

}  // namespace judge

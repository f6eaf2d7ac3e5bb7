#include "reach.hpp"

namespace judge {

namespace {

// Follows entries by work list; an entry is taken up a single time.
struct Walk {
    const Image &image;
    std::vector<bool> reached;
    std::vector<const Entry *> waiting;

    explicit Walk(const Image &read) : image(read), reached(read.entries.size(), false) {}

    void reach(uint64_t id) {
        const Entry *entry = image.resolve(id);
        if (!entry || reached[id]) return;
        reached[id] = true;
        waiting.push_back(entry);
    }

    void follow_type(Type type) {
        for (uint32_t i = type.begin; i < type.end; ++i) {
            if (image.nodes[i].tag == NAMED) reach(image.nodes[i].number);
        }
    }

    void follow_fields(const std::vector<Field> &fields) {
        for (const Field *field : survivors(fields)) follow_type(field->type);
    }

    // The types compared in an entry.
    void follow(const Entry &entry) {
        if (entry.kind == NEWTYPE) follow_type(entry.type);
        if (entry.kind == MESSAGE) follow_fields(entry.fields);
        if (entry.kind != UNION) return;
        for (const Variant *variant : survivors(entry.variants)) follow_fields(variant->fields);
    }

    void run() {
        while (!waiting.empty()) {
            const Entry *entry = waiting.back();
            waiting.pop_back();
            follow(*entry);
        }
    }
};

}  // namespace

// A survivor goes before every reached entry of its name, and of those the
// highest id: so the last of a name in this list stands.
Declarations standing_with_imports(const Image &image) {
    Walk walk(image);
    for (const Entry *survivor : standing(image, image.ids)) walk.follow(*survivor);
    walk.run();
    std::vector<uint32_t> list;
    for (uint32_t id = 0; id < walk.reached.size(); ++id) {
        if (walk.reached[id]) list.push_back(id);
    }
    list.insert(list.end(), image.ids.begin(), image.ids.end());
    return standing(image, list);
}

}  // namespace judge

// The head of an image, its contents, and the order of the refusals 1 to 10.
#include "image.hpp"

#include "cursor.hpp"

namespace judge {

namespace {

const size_t MOST_BYTES = 32768;

struct Place {
    uint16_t offset = 0;
    uint16_t length = 0;

    bool empty() const { return offset == 0 && length == 0; }
};

struct Head {
    uint16_t format = 0;
    uint16_t entries = 0;
    uint16_t ids = 0;
    uint16_t segments = 0;
    std::vector<Place> contents;
};

// Eight bytes there (2), then 3, then 4.
bool read_counts(Cursor &in, Head &head) {
    if (in.left() < 8) return in.fail(SHORT_HEAD);
    in.u16(head.format);
    in.u16(head.entries);
    in.u16(head.ids);
    in.u16(head.segments);
    if (head.format < 1 || head.format > 3) return in.fail(FORMAT);
    if (head.entries > 512 || head.ids > 512 || head.segments > 16) return in.fail(CROWDED);
    return true;
}

// The rest of 2 and the segments' 7, from left to right.
bool read_lists(Cursor &in, Head &head, Image &image) {
    head.contents.resize(head.entries);
    for (Place &place : head.contents) {
        if (!in.u16(place.offset) || !in.u16(place.length)) return false;
    }
    image.ids.resize(head.ids);
    for (uint32_t &id : image.ids) {
        if (!in.u32(id)) return false;
    }
    image.segments.resize(head.segments);
    for (Name &segment : image.segments) {
        if (!in.name(segment)) return false;
    }
    return true;
}

// 5: the bodies stand in contents order, without gaps, up to the image's end.
bool contents_hold(const Head &head, size_t start, size_t len) {
    size_t next = start;
    for (const Place &place : head.contents) {
        if (place.empty()) continue;
        if (place.length == 0 || place.offset != next) return false;
        next += place.length;
    }
    return next == len;
}

}  // namespace

int read_image(const uint8_t *bytes, size_t len, Image &image) {
    if (len > MOST_BYTES) return LONG;
    if (len == 0) return SHORT_HEAD;
    Cursor in{bytes, bytes + len, SHORT_HEAD};
    Head head;
    if (!read_counts(in, head) || !read_lists(in, head, image)) return in.fault;
    if (!contents_hold(head, len - in.left(), len)) return CONTENTS;

    image.format = head.format;
    image.entries.resize(head.entries);
    for (size_t i = 0; i < head.contents.size(); ++i) {
        const Place &place = head.contents[i];
        if (place.empty()) continue;
        const uint8_t *start = bytes + place.offset;
        Cursor body{start, start + place.length, BODY};
        if (!read_body(body, image, image.entries[i])) return body.fault;
    }
    return ACCEPTED;
}

}  // namespace judge

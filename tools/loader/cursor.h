/* Reads of an image from left to right, to the first fault. Each answers whether it went well. */
#ifndef CURSOR_H
#define CURSOR_H

#include "faults.h"

struct cursor {
    const uint8_t *image;
    size_t at;
    size_t end;
    uint64_t format; /* of the image, once its head is read: by it a body is read */
    uint64_t early; /* the refusal for a part that ends early */
    struct fault fault;
};

/* Notes a fault, and is false. */
bool refuse(struct cursor *c, uint64_t number, size_t at, struct found found);

bool take(struct cursor *c, size_t count, const char *what);

/* A number from its lowest byte on. */
uint64_t number_at(const uint8_t *bytes, size_t width);

bool read_number(struct cursor *c, size_t width, const char *what, uint64_t *number);
bool read_code(struct cursor *c, const char *what, uint64_t least, uint64_t most, uint64_t *code);
bool read_name(struct cursor *c, const char *what);

/* A whole body, to its end. */
bool read_body(struct cursor *c);

#endif

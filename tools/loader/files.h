/* Image files, and memory that ends before a page that nobody may touch. */
#ifndef FILES_H
#define FILES_H

#include <stdbool.h>
#include <stddef.h>
#include <stdint.h>

struct image {
    const char *path;
    const uint8_t *bytes; /* as far as they decide anything */
    size_t length;
    const char *doing; /* what could not be done with the file, NULL if it was read; it counts as empty then */
    int error;         /* and why, as errno says it */
};

/* So many bytes: whoever runs past their end faults. Without memory the program ends. */
void *guarded(size_t length);

struct image read_image(const char *path);

/* What is the matter with the file as a whole, NULL if it may well be an image; the text stands until the next call. */
const char *trouble_of(const struct image *image);

/* Whether it has the bytes of a text: ASCII at first, no control byte, and none that no UTF-8 has. No image is one: each has a zero byte. */
bool is_text(const struct image *image);

#endif

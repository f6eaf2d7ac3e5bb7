#define _DEFAULT_SOURCE /* MAP_ANONYMOUS */

#include "files.h"
#include "status.h"
#include "vexil_compat.h"

#include <errno.h>
#include <stdio.h>
#include <stdlib.h>
#include <string.h>
#include <sys/mman.h>
#include <unistd.h>

void *guarded(size_t length)
{
    size_t page = (size_t)sysconf(_SC_PAGESIZE);
    size_t room = (length + page - 1) / page * page;
    uint8_t *start = mmap(NULL, room + page, PROT_READ | PROT_WRITE, MAP_PRIVATE | MAP_ANONYMOUS, -1, 0);
    if (start == MAP_FAILED || mprotect(start + room, page, PROT_NONE) != 0) {
        perror("vexil-compat: memory");
        exit(FAILED);
    }
    return start + room - length;
}

/* The start of a file, one byte more than an image may have; how many bytes there are, 0 if it can't be read. */
static size_t read_start(struct image *image, uint8_t *bytes, size_t room)
{
    FILE *file = fopen(image->path, "rb");
    if (file == NULL) {
        image->doing = "opened";
        image->error = errno;
        return 0;
    }
    size_t length = fread(bytes, 1, room, file);
    if (ferror(file)) {
        image->doing = "read";
        image->error = errno;
        length = 0;
    }
    fclose(file);
    return length;
}

struct image read_image(const char *path)
{
    static uint8_t bytes[VEXIL_COMPAT_IMAGE_BYTES + 1];
    struct image image = {path, NULL, 0, NULL, 0};
    image.length = read_start(&image, bytes, sizeof bytes);
    uint8_t *copy = guarded(image.length);
    memcpy(copy, bytes, image.length);
    image.bytes = copy;
    return image;
}

const char *trouble_of(const struct image *image)
{
    static char text[256];
    if (image->doing == NULL)
        return image->length == 0 ? "the file is empty" : NULL;
    if (image->error == EISDIR)
        return "it is a folder";
    snprintf(text, sizeof text, "the file can't be %s: %s", image->doing, strerror(image->error));
    return text;
}

static bool is_of_text(uint8_t byte, size_t place)
{
    if (byte < 0x80)
        return (byte >= ' ' && byte != 0x7f) || byte == '\n' || byte == '\r' || byte == '\t';
    return place >= 8 && byte != 0xc0 && byte != 0xc1 && byte < 0xf5;
}

bool is_text(const struct image *image)
{
    for (size_t i = 0; i < image->length; i++) {
        if (!is_of_text(image->bytes[i], i))
            return false;
    }
    return image->length != 0;
}

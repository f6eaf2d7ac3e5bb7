/*
 * Prints of each image on standard input what the loading tool says of it on standard error: `refused 9: code: ..`, or `accepted`. An image
 * comes as its length, four bytes from the lowest on, and its bytes. A number other than the library's ends it with status 1.
 */
#include "faults.h"
#include "vexil_compat.h"

#include <inttypes.h>
#include <stdlib.h>

/* Each image in memory of its own, so that a checker of memory sees a byte too many. */
static uint8_t *next_image(size_t *length)
{
    uint8_t head[4];
    if (fread(head, 1, sizeof head, stdin) != sizeof head)
        return NULL;
    *length = head[0] | (size_t)head[1] << 8 | (size_t)head[2] << 16 | (size_t)head[3] << 24;
    uint8_t *image = malloc(*length != 0 ? *length : 1);
    if (image == NULL || fread(image, 1, *length, stdin) != *length)
        exit(1);
    return image;
}

static void print(const struct fault *fault)
{
    if (fault->number == VEXIL_COMPAT_REFUSAL_NONE) {
        puts("accepted");
        return;
    }
    printf("refused %" PRIu64 ": %s: ", fault->number, vexil_compat_refusal_name(fault->number));
    print_fault(stdout, fault);
    putchar('\n');
}

int main(void)
{
    size_t length;
    uint8_t *image;
    while ((image = next_image(&length)) != NULL) {
        struct fault fault = find_fault(image, length);
        uint64_t number = vexil_compat_listing_verdict(image, length, UINT64_MAX, VEXIL_COMPAT_SELECT_NUMBER);
        print(&fault);
        if (fault.number != number) {
            printf("the library's number is %" PRIu64 "\n", number);
            return 1;
        }
        free(image);
    }
    return 0;
}

/*
 * stack [--imports | --mended | --list]: makes the calls of one verdict, or those on one image, on a stack of 64 KiB with a page below it that
 * nobody may touch, and prints how many bytes of it they used at most. The values call is also held against the verdict call, and must leave
 * what stands before and past its buffer; the listing against its verdict. The pairs come from standard input: each image as its length,
 * four bytes from the lowest on, and its bytes.
 */
#define _DEFAULT_SOURCE /* MAP_ANONYMOUS */

#include "options.h"
#include "verdicts.h"
#include "vexil_compat.h"

#include <pthread.h>
#include <stdbool.h>
#include <stdio.h>
#include <stdlib.h>
#include <string.h>
#include <sys/mman.h>
#include <unistd.h>

enum { STACK_BYTES = 65536, REPORT_BYTES = 131072, MOST_VALUES = VEXIL_COMPAT_VALUES + 2, UNUSED = 0xA5 };

struct image {
    uint8_t bytes[VEXIL_COMPAT_IMAGE_BYTES + 1];
    size_t length;
};

struct told {
    unsigned pairs;
    unsigned differences;
    const uint8_t *caller; /* what stands on the stack from here on was there before the calls */
};

static const struct calls *calls = &calls_of[PLAIN]; /* NULL: the calls on one image */
static struct image old, new;
static uint8_t out[REPORT_BYTES];
static uint64_t memory[1 + MOST_VALUES + 1];

static bool next_image(struct image *image)
{
    uint8_t head[4];
    if (fread(head, 1, sizeof head, stdin) != sizeof head)
        return false;
    image->length = head[0] | (size_t)head[1] << 8 | (size_t)head[2] << 16 | (size_t)head[3] << 24;
    return image->length <= sizeof image->bytes && fread(image->bytes, 1, image->length, stdin) == image->length;
}

/* Whether the values call, lent so many places, answers anything else than the verdict call does by these values. */
static bool differs(const uint64_t *wanted, size_t places)
{
    uint64_t *values = memory + 1, untouched;
    memset(&untouched, UNUSED, sizeof untouched);
    memset(memory, UNUSED, sizeof memory);
    uint64_t number = calls->values(old.bytes, old.length, new.bytes, new.length, values, places);
    return number != wanted[VEXIL_COMPAT_SELECT_NUMBER] || memcmp(values, wanted, places * sizeof *values) != 0 || memory[0] != untouched
        || values[places] != untouched;
}

/* Makes all calls of the verdict; how often they differ. */
static unsigned call_pair(void)
{
    static const size_t places[] = {0, 1, VEXIL_COMPAT_SELECT_COUNTS, VEXIL_COMPAT_VALUES, MOST_VALUES};
    static uint64_t wanted[MOST_VALUES];
    unsigned differences = 0;
    for (uint64_t selector = 0; selector < MOST_VALUES; selector++)
        wanted[selector] = calls->verdict(old.bytes, old.length, new.bytes, new.length, selector);
    for (size_t i = 0; i < sizeof places / sizeof *places; i++)
        differences += differs(wanted, places[i]);
    calls->report(old.bytes, old.length, new.bytes, new.length, out, sizeof out);
    return differences;
}

/* The same of one image. */
static unsigned call_one(const struct image *image)
{
    static uint64_t wanted[MOST_VALUES];
    for (uint64_t selector = 0; selector < MOST_VALUES; selector++)
        wanted[selector] = vexil_compat_listing_verdict(image->bytes, image->length, sizeof out, selector);
    return vexil_compat_listing(image->bytes, image->length, out, sizeof out) != wanted[VEXIL_COMPAT_SELECT_LENGTH];
}

static void *call_all(void *told)
{
    struct told *t = told;
    t->caller = (const uint8_t *)&t;
    while (next_image(&old) && next_image(&new)) {
        t->differences += calls != NULL ? call_pair() : call_one(&old) + call_one(&new);
        t->pairs++;
    }
    return NULL;
}

int main(int count, char **words)
{
    if (count == 2 && verdict_of(words[1]) != PLAIN)
        calls = &calls_of[verdict_of(words[1])];
    else if (count == 2 && strcmp(words[1], "--list") == 0)
        calls = NULL;
    else if (count != 1)
        return 1;
    size_t page = (size_t)sysconf(_SC_PAGESIZE);
    uint8_t *start = mmap(NULL, page + STACK_BYTES, PROT_READ | PROT_WRITE, MAP_PRIVATE | MAP_ANONYMOUS, -1, 0);
    if (start == MAP_FAILED || mprotect(start, page, PROT_NONE) != 0)
        return 1;
    uint8_t *stack = start + page;
    memset(stack, UNUSED, STACK_BYTES);

    struct told told = {0, 0, NULL};
    pthread_t thread;
    pthread_attr_t attributes;
    if (pthread_attr_init(&attributes) != 0 || pthread_attr_setstack(&attributes, stack, STACK_BYTES) != 0
        || pthread_create(&thread, &attributes, call_all, &told) != 0 || pthread_join(thread, NULL) != 0)
        return 1;

    size_t unused = 0;
    while (unused < STACK_BYTES && stack[unused] == UNUSED)
        unused++;
    printf("%u pairs, %u differences, %zu bytes of stack\n", told.pairs, told.differences, (size_t)(told.caller - (stack + unused)));
    return 0;
}

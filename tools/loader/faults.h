/*
 * Where an image is at fault, in words. The library says by which number an image is refused; this finds what that number speaks of, for a
 * person who has to mend it, and nothing is decided by it.
 */
#ifndef FAULTS_H
#define FAULTS_H

#include <stdbool.h>
#include <stddef.h>
#include <stdint.h>
#include <stdio.h>

enum { NO_ENTRY = -1, NO_KIND = -1, CONFIG = 5, GENERIC_ALIAS = 6, IMPL = 8 };

struct place {
    int entry;           /* the id of the entry, or NO_ENTRY */
    int kind;            /* that entry's kind, once it is read, or NO_KIND */
    const uint8_t *name; /* that entry's name, once it is read, or NULL */
    size_t name_length;
    size_t at; /* the first byte of what is meant */
};

/* What was being read or judged, and a number that tells what is wrong with it. */
struct found {
    const char *what;
    enum { VALUE, BYTE_VALUE, OFFSET, BYTES, BYTES_MISSING } measure;
    uint64_t number;
};

struct fault {
    uint64_t number; /* of the refusal, 0 if there is none */
    struct place place;
    struct found found;
};

struct fault find_fault(const uint8_t *image, size_t length);

/* Of an accepted image: its format, how many entries it has, and the place of one; false if that one is empty. */
uint64_t format_of(const uint8_t *image);
size_t count_entries(const uint8_t *image);
bool find_entry(const uint8_t *image, size_t id, struct place *place);

/* As `entry 3, message 'Status', at byte 260`. */
void print_place(FILE *out, const struct place *place);

/* With what was met there: `entry 3, message 'Status', at byte 260: bits 71`. */
void print_fault(FILE *out, const struct fault *fault);

#endif

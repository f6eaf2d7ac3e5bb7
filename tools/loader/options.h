/* What the loading tool is asked for. */
#ifndef OPTIONS_H
#define OPTIONS_H

#include "verdicts.h"

#include <stdbool.h>

enum action { COMPARE, LIST, ANSWERED, BAD_USAGE };

struct options {
    enum action action;
    enum verdict verdict;
    bool counts;
    char **paths; /* of two images to compare, or of one to list */
};

/* The verdict that a word asks for; PLAIN, which is asked for by none, if it is no such word. */
enum verdict verdict_of(const char *word);

/* Answers --help and --version itself, and bad usage too, on standard error. */
struct options read_options(int count, char **words);

#endif

#include "options.h"
#include "vexil_compat.h"

#include <stdio.h>
#include <string.h>

/* What proved the library that this is linked with. */
#ifndef TOOLCHAIN
#define TOOLCHAIN VEXIL_COMPAT_KIT
#endif

static const char usage[] =
    "usage: vexil-compat [--imports | --mended] [--counts] OLD NEW\n"
    "       vexil-compat --list IMAGE\n"
    "       vexil-compat --help | --version\n";

static const char help[] =
    "\n"
    "Compares two image files, OLD that runs and NEW that is to be loaded, and prints every change and the verdict, or a refusal; on\n"
    "standard error then what is wrong with which file, and where. A file whose name starts with `-` is given as `./-name`.\n"
    "\n"
    "  --imports   compares what the images import, too\n"
    "  --mended    compares vectors, quaternions and matrices like all other types; without it they always count as changed. It compares\n"
    "              the widths of enums and flags, too, and tells of numbers that were struck off and are used again, or no longer\n"
    "              struck off. It needs images of format 2 on both sides, or of format 3 on both\n"
    "  --counts    prints first how many changes there are of each kind\n"
    "  --list      prints the contents of one image\n"
    "\n"
    "There are three verdicts, and a call asks for one of them: without --imports and --mended for that of Vexil's compat.rs. None does what\n"
    "both options do.\n"
    "\n"
    "Images are of format 1; of format 2, which holds widths, too; or of format 3, which holds widths and the numbers that were struck\n"
    "off. The exporter writes the one that it is asked for: `Format::Three` for --mended, or `Format::Two`, without those numbers.\n"
    "Without --mended every format is read, and widths and numbers that were struck off are ignored.\n"
    "\n"
    "Exit status: 0 Compatible, or listed; 1 Breaking; 3 refused; 2 bad usage, no build, or an answer that could not be printed. NEW may be\n"
    "loaded only if a comparison ends with 0.\n";

static bool is(const char *word, const char *option)
{
    return strcmp(word, option) == 0;
}

/* The option that asks for a verdict. */
static const char *const option_of[VERDICTS] = {
    [WITH_IMPORTS] = "--imports",
    [MENDED] = "--mended",
};

enum verdict verdict_of(const char *word)
{
    enum verdict verdict = VERDICTS - 1;
    while (verdict != PLAIN && !is(word, option_of[verdict]))
        verdict--;
    return verdict;
}

/* The place of the first word that is none of these options, or that is there a second time; of verdicts one is asked for. */
static int take_options(int count, char **words, struct options *options)
{
    int place = 1;
    for (; place < count; place++) {
        enum verdict verdict = verdict_of(words[place]);
        if (verdict != PLAIN && options->verdict == PLAIN)
            options->verdict = verdict;
        else if (is(words[place], "--counts") && !options->counts)
            options->counts = true;
        else
            break;
    }
    return place;
}

static bool are_paths(int count, char **words)
{
    for (int i = 0; i < count; i++) {
        if (words[i][0] == '-')
            return false;
    }
    return true;
}

struct options read_options(int count, char **words)
{
    struct options options = {BAD_USAGE, PLAIN, false, NULL};
    int first = take_options(count, words, &options);
    if (count == 2 && is(words[1], "--help")) {
        printf("%s%s", usage, help);
        options.action = ANSWERED;
    } else if (count == 2 && is(words[1], "--version")) {
        printf("vexil-compat %s, toolchain %s\n", VEXIL_COMPAT_VERSION, TOOLCHAIN);
        options.action = ANSWERED;
    } else if (count == 3 && is(words[1], "--list") && are_paths(1, words + 2)) {
        options.action = LIST;
        options.paths = words + 2;
    } else if (count - first == 2 && are_paths(2, words + first)) {
        options.action = COMPARE;
        options.paths = words + first;
    } else {
        fprintf(stderr, "%s(more: vexil-compat --help)\n", usage);
    }
    return options;
}

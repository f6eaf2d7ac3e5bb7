/* The line on standard error that helps with a refusal: its word, the file, and what is wrong where. */
#ifndef REFUSALS_H
#define REFUSALS_H

#include "files.h"
#include "verdicts.h"

/* Of one image that is refused by this number. */
void explain_image(const struct image *image, uint64_t number);

/* Of two images that are refused together, by the verdict of these calls: what stands under one name is a generic alias in both. */
void explain_alias_pair(const struct image *old, const struct image *new, const struct calls *calls);

/* Of two images that are refused together for their formats: which has which, and how to get another. */
void explain_mixed(const struct image *old, const struct image *new);

#endif

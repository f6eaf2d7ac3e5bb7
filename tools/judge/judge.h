/* A second judge of the schema comparer: verdicts, reports and refilings by
 * documents 01 and 02. A lent buffer may be null if its length is 0. No call
 * reads outside the lent bytes, and bytes past a written length stay. */
#ifndef JUDGE_H
#define JUDGE_H

#include <stddef.h>
#include <stdint.h>

#ifdef __cplusplus
extern "C" {
#endif

/* The verdict of 01, the one that follows imports, the mended one. */
enum judge_which { JUDGE_FIRST = 0, JUDGE_IMPORTS = 1, JUDGE_MENDED = 2 };

/* Selectors: 0 number, 1 side (0 none, 1 old, 2 new, 3 both), 2 bump,
 * 3 result (1 Breaking), 4 length of the report, 5 to 25 the counts in the
 * order of ChangeKind with WidthChanged, TombstoneReused and TombstoneDropped
 * at the end; a selector beyond gives 0. */
uint64_t judge_verdict(int which, const uint8_t *old_image, size_t old_len,
                       const uint8_t *new_image, size_t new_len,
                       uint64_t selector);

/* The length written; 0, with an untouched buffer, if refused. */
uint64_t judge_report(int which, const uint8_t *old_image, size_t old_len,
                      const uint8_t *new_image, size_t new_len, uint8_t *out,
                      size_t out_len);

/* Both of the above by one comparison: values[i] is judge_verdict's answer to
 * selector i, out and *written are judge_report's (written may be null).
 * Returns values[0], the number; a report too long for out shows only in
 * *written, which is then 0. */
uint64_t judge_all(int which, const uint8_t *old_image, size_t old_len,
                   const uint8_t *new_image, size_t new_len, uint64_t *values,
                   size_t count, uint8_t *out, size_t out_len, size_t *written);

/* The refusal number of one image, 0 if it passes 1 to 10. */
int judge_accepts(const uint8_t *image, size_t len);

/* 1 if an accepted image breaks the premise of R-13, else 0. An image that is
 * not accepted gives 0. */
int judge_repeats(const uint8_t *image, size_t len);

/* A copy filed anew at random in every way that R-13 allows. Gives its length;
 * 0, with an untouched buffer, if the image is not accepted, has repeats or
 * does not fit. */
size_t judge_refile(const uint8_t *image, size_t len, uint64_t seed,
                    uint8_t *out, size_t out_len);

/* 1 if both images are accepted and without repeats and b is a filed anew. */
int judge_refiled(const uint8_t *a, size_t a_len, const uint8_t *b,
                  size_t b_len);

#ifdef __cplusplus
}
#endif

#endif

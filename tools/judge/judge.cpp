// The calls of judge.h.
#include "judge.h"

#include <cstring>

#include "clauses.hpp"
#include "reach.hpp"
#include "refile.hpp"

namespace judge {

namespace {

enum Side { NONE = 0, OLD = 1, NEW = 2, BOTH = 3 };

// A refusal is number and side; else the report is finished.
struct Answer {
    int number = ACCEPTED;
    int side = NONE;
    Report report;

    void refuse(int refusal, Side who) {
        number = refusal;
        side = who;
    }

    uint64_t selected(uint64_t selector) const {
        const uint64_t first_count = 5;
        if (selector == 0) return uint64_t(number);
        if (selector == 1) return uint64_t(side);
        if (selector == 2) return number != ACCEPTED ? MAJOR : report.bump;
        if (selector == 3) return number != ACCEPTED || report.breaking();
        if (selector >= first_count + CHANGE_COUNT || number != ACCEPTED) return 0;
        if (selector == 4) return report.text.size();
        return report.counts[selector - first_count];
    }

    // The report call: 12 if the buffer is too short, which is then untouched.
    size_t write(uint8_t *out, size_t out_len) const {
        if (number != ACCEPTED || report.text.size() > out_len) return 0;
        std::memcpy(out, report.text.data(), report.text.size());
        return report.text.size();
    }
};

struct Bytes {
    const uint8_t *data;
    size_t len;
};

// 16: either image of format 1, or one of format 3 against one that is not.
bool mixed(const Image &old_image, const Image &new_image) {
    return old_image.format == 1 || new_image.format == 1 ||
           (old_image.format == 3) != (new_image.format == 3);
}

Declarations declarations_of(int which, const Image &image) {
    return which == JUDGE_IMPORTS ? standing_with_imports(image) : standing(image, image.ids);
}

// The order of the checks: old 1 to 10, new 1 to 10, 16, 11.
void judge_pair(int which, Bytes old_bytes, Bytes new_bytes, Answer &answer) {
    Image old_image, new_image;
    if (int number = read_image(old_bytes.data, old_bytes.len, old_image)) {
        return answer.refuse(number, OLD);
    }
    if (int number = read_image(new_bytes.data, new_bytes.len, new_image)) {
        return answer.refuse(number, NEW);
    }
    bool mended = which == JUDGE_MENDED;
    if (mended && mixed(old_image, new_image)) return answer.refuse(MIXED, BOTH);

    Declarations olds = declarations_of(which, old_image);
    Declarations news = declarations_of(which, new_image);
    if (alias_pair(olds, news)) return answer.refuse(ALIAS_PAIR, BOTH);
    compare({old_image, new_image, mended, olds, news, answer.report});
    answer.report.finish();
}

}  // namespace

}  // namespace judge

using judge::Answer;
using judge::Image;

extern "C" uint64_t judge_verdict(int which, const uint8_t *old_image, size_t old_len,
                                  const uint8_t *new_image, size_t new_len, uint64_t selector) {
    Answer answer;
    judge::judge_pair(which, {old_image, old_len}, {new_image, new_len}, answer);
    return answer.selected(selector);
}

extern "C" uint64_t judge_report(int which, const uint8_t *old_image, size_t old_len,
                                 const uint8_t *new_image, size_t new_len, uint8_t *out,
                                 size_t out_len) {
    Answer answer;
    judge::judge_pair(which, {old_image, old_len}, {new_image, new_len}, answer);
    return answer.write(out, out_len);
}

extern "C" uint64_t judge_all(int which, const uint8_t *old_image, size_t old_len,
                              const uint8_t *new_image, size_t new_len, uint64_t *values,
                              size_t count, uint8_t *out, size_t out_len, size_t *written) {
    Answer answer;
    judge::judge_pair(which, {old_image, old_len}, {new_image, new_len}, answer);
    for (size_t i = 0; i < count; ++i) values[i] = answer.selected(i);
    size_t length = answer.write(out, out_len);
    if (written) *written = length;
    return uint64_t(answer.number);
}

extern "C" int judge_accepts(const uint8_t *image, size_t len) {
    Image read;
    return judge::read_image(image, len, read);
}

extern "C" int judge_repeats(const uint8_t *image, size_t len) {
    Image read;
    if (judge::read_image(image, len, read) != judge::ACCEPTED) return 0;
    return judge::has_repeats(read);
}

extern "C" size_t judge_refile(const uint8_t *image, size_t len, uint64_t seed, uint8_t *out,
                               size_t out_len) {
    Image read;
    if (judge::read_image(image, len, read) != judge::ACCEPTED) return 0;
    if (judge::has_repeats(read) || len > out_len) return 0;
    std::string filed = judge::file_anew(read, seed);
    std::memcpy(out, filed.data(), filed.size());
    return filed.size();
}

extern "C" int judge_refiled(const uint8_t *a, size_t a_len, const uint8_t *b, size_t b_len) {
    Image one, other;
    if (judge::read_image(a, a_len, one) != judge::ACCEPTED) return 0;
    if (judge::read_image(b, b_len, other) != judge::ACCEPTED) return 0;
    if (judge::has_repeats(one) || judge::has_repeats(other)) return 0;
    return judge::is_filed_anew(one, other);
}

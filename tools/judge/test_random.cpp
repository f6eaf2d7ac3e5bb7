// Random images from a small stock of names and numbers: the distance rule,
// the swap of counts, filing anew, and bytes changed at random.
#include <algorithm>
#include <cstdio>

#include "maker.hpp"

namespace test {

namespace {

struct Random {
    uint64_t state;

    uint64_t next() {
        state ^= state << 13;
        state ^= state >> 7;
        state ^= state << 17;
        return state;
    }
    uint32_t below(uint32_t bound) { return uint32_t((next() >> 33) % bound); }
    bool one_in(uint32_t odds) { return below(odds) == 0; }
};

// Draws one image. With `vectors` off no type holds one; with `aliases` off
// no entry is a generic alias.
struct Draw {
    Random &random;
    Maker maker;
    uint32_t entries;
    bool vectors;
    bool aliases;

    std::string word() {
        static const char *const words[] = {"", "A", "B", "AB", "C", "D_1"};
        return words[random.below(6)];
    }

    Bytes type(int depth) {
        uint32_t roll = random.below(depth > 3 ? 5 : 14);
        switch (roll) {
            case 0: return prim(random.below(3));
            case 1: return sub(random.below(2), 1 + random.below(8));
            case 2: return sem(random.below(2));
            case 3: return named(random.below(entries + 2));
            case 4: return bits({word(), word()});
            case 5: return optional(type(depth + 1));
            case 6: return array(type(depth + 1));
            case 7: return array(type(depth + 1), random.below(2));
            case 8: return set(type(depth + 1));
            case 9: return map(type(depth + 1), type(depth + 1));
            case 10: return result(type(depth + 1), type(depth + 1));
            case 11: return vectors ? wrap(10 + random.below(6), type(depth + 1)) : prim(1);
            default: return named(random.below(entries + 2));
        }
    }

    Bytes rest() {
        Bytes encoding = times(random.below(2), u8(3)) + u8(random.below(3));
        Bytes limit = random.one_in(3) ? u8(1) + u64(random.below(2)) : u8(0);
        return u8(random.below(4)) + encoding + limit;
    }

    Parts fields() {
        Parts parts;
        for (uint32_t i = random.below(4); i > 0; --i) {
            Bytes extras = random.one_in(3) ? rest() : PLAIN;
            parts.push_back(field(random.below(4), word(), type(0), extras));
        }
        return parts;
    }

    Parts items() {
        Parts parts;
        for (uint32_t i = random.below(5); i > 0; --i) {
            parts.push_back(item(random.below(5), word()));
        }
        return parts;
    }

    Numbers struck() {
        Numbers numbers;
        for (uint32_t i = random.below(3); i > 0; --i) numbers.push_back(random.below(5));
        return numbers;
    }

    Bytes body() {
        Parts variants;
        for (uint32_t i = random.below(4); i > 0; --i) {
            variants.push_back(maker.variant(random.below(4), word(), fields(), struck()));
        }
        switch (random.below(aliases ? 10 : 9)) {
            case 0:
            case 1: return maker.message(word(), fields(), random.below(4), struck());
            case 2:
                return maker.enumeration(word(), items(), random.below(4), random.below(3),
                                         struck());
            case 3: return maker.flags(word(), items(), 1u << random.below(2), struck());
            case 4:
            case 5: return maker.union_of(word(), variants, struck());
            case 6: return maker.newtype(word(), type(0));
            case 7: return maker.impl();
            case 8: return random.one_in(2) ? maker.trait(word()) : Bytes();
            default: return maker.alias(word());
        }
    }

    Bytes image() {
        Parts bodies;
        for (uint32_t i = 0; i < entries; ++i) bodies.push_back(body());
        Numbers ids;
        for (uint32_t i = random.below(6); i > 0; --i) ids.push_back(random.below(entries + 1));
        std::vector<std::string> segments = {"n"};
        if (random.one_in(8)) segments.push_back(word());
        return maker.image(segments, bodies, ids);
    }
};

Bytes draw(Random &random, unsigned format, bool vectors = true, bool aliases = true) {
    Draw one{random, Maker{format}, 1 + random.below(5), vectors, aliases};
    return one.image();
}

const int ALL[] = {JUDGE_FIRST, JUDGE_IMPORTS, JUDGE_MENDED};

struct Values {
    std::vector<uint64_t> at;
    std::string text;

    Values(int which, const Bytes &a, const Bytes &b) : at(26) {
        static std::vector<uint8_t> out(65536);
        auto bytes = [](const Bytes &image) {
            return reinterpret_cast<const uint8_t *>(image.data());
        };
        size_t written = 0;
        judge_all(which, bytes(a), a.size(), bytes(b), b.size(), at.data(), at.size(), out.data(),
                  out.size(), &written);
        text.assign(out.begin(), out.begin() + long(written));
    }
    bool is_verdict() const { return at[0] == 0; }
};

// The counts are the lines of the report, and bump and result follow them.
bool consistent(const Values &v) {
    if (!v.is_verdict()) return v.text.empty() && v.at[2] == 2 && v.at[3] == 1 && v.at[4] == 0;
    uint64_t sum = 0;
    for (size_t i = 5; i < v.at.size(); ++i) sum += v.at[i];
    uint64_t lines = uint64_t(std::count(v.text.begin(), v.text.end(), '\n'));
    bool major = v.text.find(";Major;") != Bytes::npos;
    return v.at[4] == v.text.size() && lines == sum + 1 && v.at[3] == (v.at[2] == 2) &&
           major == (v.at[2] == 2) && v.at[8] == 0 && v.at[14] == 0 && v.at[22] == 0;
}

// Removed one way are added the other; the rest is the same, deprecations and
// tombstones excepted.
bool counts_swap(const Values &v, const Values &w) {
    const size_t swapped[4][2] = {{5, 6}, {12, 13}, {15, 16}, {20, 21}};
    for (const auto &pair : swapped) {
        if (v.at[pair[0]] != w.at[pair[1]] || v.at[pair[1]] != w.at[pair[0]]) return false;
    }
    for (size_t same : {7, 8, 9, 11, 14, 17, 18, 19, 22, 23}) {
        if (v.at[same] != w.at[same]) return false;
    }
    return true;
}

void report_rules() {
    Random random{11};
    uint64_t verdicts = 0, broken = 0;
    for (int i = 0; i < 20000; ++i) {
        unsigned format = 1 + random.below(3);
        Bytes a = draw(random, format), b = random.one_in(3) ? a : draw(random, format);
        for (int which : ALL) {
            Values v(which, a, b), w(which, b, a);
            broken += !consistent(v) || v.is_verdict() != w.is_verdict();
            if (!v.is_verdict()) continue;
            ++verdicts;
            broken += !counts_swap(v, w);
        }
    }
    expect_number("rules of one pair", broken, 0);
    expect("verdicts drawn", verdicts > 10000);
}

// First to last is at most the largest between neighbours.
void chain_rule() {
    Random random{12};
    uint64_t broken = 0, chains = 0;
    for (int i = 0; i < 20000; ++i) {
        unsigned format = 2 + random.below(2);
        std::vector<Bytes> list;
        for (int k = 0; k < 3; ++k) list.push_back(draw(random, format, false, false));
        for (int which : ALL) {
            Values ab(which, list[0], list[1]), bc(which, list[1], list[2]);
            Values ac(which, list[0], list[2]);
            if (!ab.is_verdict() || !bc.is_verdict() || !ac.is_verdict()) continue;
            ++chains;
            broken += ac.at[2] > std::max(ab.at[2], bc.at[2]);
        }
    }
    expect_number("chain rule", broken, 0);
    expect_number("chains", chains, 60000);
}

// Without vectors every image is at 0 from itself; with them at 0 or 2, and the
// mended verdict at 0 but for tombstones.
void self_distance() {
    Random random{13};
    uint64_t broken = 0;
    for (int i = 0; i < 20000; ++i) {
        Bytes plain = draw(random, 2, false, false), any = draw(random, 2, true, false);
        for (int which : ALL) {
            broken += verdict(which, plain, plain, 2) != 0;
            broken += verdict(which, any, any, 2) == 1;
        }
        broken += verdict(JUDGE_MENDED, any, any, 2) != 0;
        uint64_t first = verdict(JUDGE_FIRST, any, any, 2);
        broken += first > verdict(JUDGE_IMPORTS, any, any, 2);
        Bytes struck = draw(random, 3, true, false);
        Values mended(JUDGE_MENDED, struck, struck);
        broken += mended.at[2] != (mended.at[24] > 0 ? 2 : 0) || mended.at[25] != 0;
    }
    expect_number("self distance", broken, 0);
}

// Images filed anew get the same reports, by all three verdicts of one format;
// with imports where no two entries share a name.
void filing() {
    Random random{14};
    uint64_t filed = 0, broken = 0, told_apart = 0, others = 0;
    for (int i = 0; i < 40000; ++i) {
        unsigned format = 1 + random.below(3);
        Bytes a = draw(random, format), b = draw(random, format);
        if (repeats(a) || repeats(b)) continue;
        ++filed;
        Bytes a2 = refile(a, random.next()), b2 = refile(b, random.next());
        broken += refiled(a, a2) != 1 || refiled(b2, b) != 1;
        for (int which : {JUDGE_FIRST, JUDGE_MENDED}) {
            Values v(which, a, b), w(which, a2, b2);
            broken += v.at != w.at || v.text != w.text;
        }
        ++others;
        told_apart += refiled(a, b) == 0;
    }
    expect_number("filing order", broken, 0);
    expect("filed", filed > 5000);
    expect("told apart", told_apart > others / 2);
}

// Undeclared entries that look alike and point to each other: the decision is
// the same as by trying every renumbering.
void renumbering_by_trial() {
    Random random{16};
    uint64_t broken = 0, alike = 0;
    using Targets = std::vector<std::pair<uint32_t, uint32_t>>;
    const uint32_t count = 4;
    auto image = [](const Targets &targets) {
        Parts bodies;
        for (auto two : targets) {
            bodies.push_back(Maker{1}.newtype("R", map(named(two.first), named(two.second))));
        }
        return Maker{1}.image({}, bodies, {});
    };
    auto any = [&] {
        Targets targets;
        for (uint32_t i = 0; i < count; ++i) {
            targets.emplace_back(random.below(count), random.below(count));
        }
        return targets;
    };
    for (int i = 0; i < 3000; ++i) {
        Targets a = any(), b = any();
        std::vector<uint32_t> anew = {0, 1, 2, 3};
        if (random.one_in(2)) {
            for (uint32_t k = 0; k < count; ++k) b[k ^ 1] = {a[k].first ^ 1, a[k].second ^ 1};
            if (random.one_in(2)) b[random.below(count)].first = random.below(count);
        }
        bool found = false;
        do {
            bool fits = true;
            for (uint32_t k = 0; k < count; ++k) {
                fits = fits && b[anew[k]].first == anew[a[k].first] &&
                       b[anew[k]].second == anew[a[k].second];
            }
            found = found || fits;
        } while (std::next_permutation(anew.begin(), anew.end()));
        alike += found;
        broken += refiled(image(a), image(b)) != int(found);
    }
    expect_number("renumbering by trial", broken, 0);
    expect("alike and not", alike > 700 && alike < 2300);
}

// One byte changed, cut off or put in: no call may fail, and an accepted image
// is still accepted when filed anew.
void changed_bytes() {
    Random random{15};
    uint64_t accepted = 0, broken = 0, refused[17] = {};
    for (int i = 0; i < 30000; ++i) {
        Bytes a = draw(random, 1 + random.below(3)), b = a;
        uint32_t at = random.below(uint32_t(b.size()));
        switch (random.below(3)) {
            case 0: b[at] = char(random.below(256)); break;
            case 1: b.resize(at); break;
            default: b[at] = char(b[at] ^ (1 << random.below(8))); break;
        }
        int number = accepts(b);
        ++refused[number];
        accepted += number == 0;
        uint64_t got = verdict(ALL[i % 3], b, a, 0);
        broken += number != 0 ? got != uint64_t(number) : (got > 0 && got < 11);
        Bytes anew = refile(b, random.next());
        broken += !anew.empty() && refiled(b, anew) != 1;
        report(ALL[i % 3], a, b);
    }
    expect_number("changed bytes", broken, 0);
    expect("some still accepted", accepted > 1000);
    for (int number : {2, 3, 4, 5, 6, 7, 8, 9}) {
        expect("refusal drawn: " + std::to_string(number), refused[number] > 0);
    }
}

}  // namespace

void test_random() {
    report_rules();
    chain_rule();
    self_distance();
    filing();
    renumbering_by_trial();
    changed_bytes();
}

}  // namespace test

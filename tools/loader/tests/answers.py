#!/usr/bin/env python3
"""Tests of the loading tool's answers on named pairs, by each verdict. What it prints is what `oracle report --whole` and `oracle list` print,
and its exit status follows from that; of a refusal it says on standard error what is wrong where.

It needs target/loader/loader (build.sh) and target/oracle/oracle. The last line is `N passed, M failed`.
"""

import itertools
import os
import random
import re
import shutil
import signal
import struct
import subprocess
import sys

from suite import (
    DO_NOT_LOAD, FAILED, HEADER, LOAD, LOADER, REFUSED, ROOT, SANITIZED, SOURCES, TESTS, WALK, Suite, bad_usage, build, framed, kinds, library,
    version,
)
from pairs import (
    ANSWERS, IMPORTS, MENDED, MIXED, ORACLE, PLAIN, SAMPLE, VERDICTS, both_bad, by_each, files, formats, in_format, listings, of_record, output,
    recorded, sample_files, samples, told,
)

DAMAGED = "refused 9: code: entry 3, message 'Status', at byte 260: bits 71"


def another_answer(suite: Suite):
    """The named pairs, those that are not random, that get another answer by this verdict than by the first."""
    tried = 0
    for (name, old, new, *plain), (*_, selectors, report) in zip(recorded(), recorded(suite.verdict), strict=True):
        if "random" not in name and plain != [selectors, report]:
            suite.images(name, old, new, suite.printed(selectors, report))
            tried += 1
    suite.equal("100 pairs or more", tried >= 100, True)


def counts(suite: Suite):
    """Those of the recorded pair that changes in most kinds: in all but the three that never change, and in widths and tombstones by the mended
    verdict alone."""
    _, old, new, *_ = max(recorded(suite.verdict), key=lambda pair: sum(map(bool, pair[3][5:])))
    old, new = suite.image("old", old), suite.image("new", new)
    values = [int(line.split()[1]) for line in output(ORACLE, "verdict", *suite.call(old, new))[1].splitlines()][5:]
    lines = "".join(f"{kind} {value}\n" for kind, value in zip(kinds(), values, strict=True) if value)
    never = 3 if suite.verdict == MENDED else 6
    suite.equal("all other kinds are there", lines.count("\n"), len(kinds()) - never)
    status, report = suite.asked(old, new)
    suite.equal("counts", output(LOADER, "--counts", *suite.call(old, new)), (status, lines + report))
    suite.equal("no counts", output(LOADER, "--counts", *suite.call(old, old)), suite.asked(old, old))
    suite.equal("no counts of a refusal", output(LOADER, "--counts", *suite.call(old, "/dev/null")), (REFUSED, "refused 2 new\n"))


def counts_by_verdict(suite: Suite):
    """They are those of the verdict that is asked, whichever option comes first."""
    for verdict, names, wanted in (
        (PLAIN, ("carousel-1", "carousel-3"), ["DeclarationAdded 1"]),
        (IMPORTS, ("carousel-1", "carousel-3"), ["FieldTypeChanged 1", "FlagsBitAdded 1"]),
        (PLAIN, ("wheel-1", "wheel-2"), ["FieldTypeChanged 2", "FieldRenamed 1", "VariantAdded 1"]),
        (MENDED, ("wheel-1", "wheel-2"), ["FieldRenamed 1", "VariantAdded 1"]),
        (MENDED, ("wheel-1", "wheel-1"), []),
        (PLAIN, ("effect-1", "effect-3"), ["VariantAdded 1"]),
        (MENDED, ("effect-1", "effect-3"), ["VariantAdded 1", "TombstoneReused 1"]),
        (MENDED, ("effect-1", "effect-2"), ["TombstoneDropped 2"]),
    ):
        for options in ([*verdict, "--counts"], ["--counts", *verdict]):
            found = output(LOADER, *options, *sample_files(*names))[1].splitlines()
            suite.equal(f"{options} {names}", [line for line in found if ";" not in line], wanted)


def told_apart(suite: Suite):
    """A changed import is Breaking by the verdict with imports alone, a changed width and a tombstone that is dropped or reused by the mended one
    alone; the wheel's vectors are not by the mended one alone, until one changes."""
    for verdict in VERDICTS:
        imports = DO_NOT_LOAD if verdict == IMPORTS else LOAD
        suite.equal(f"an import that changes {verdict}", output(LOADER, *verdict, *sample_files("import-old", "import-new"))[0], imports)
        widths = DO_NOT_LOAD if verdict == MENDED else LOAD
        for names in (("width-old", "width-new"), ("lamp-1", "lamp-2"), ("effect-1", "effect-2"), ("effect-1", "effect-3")):
            suite.equal(f"{names} {verdict}", output(LOADER, *verdict, *sample_files(*names))[0], widths)
        suite.equal(f"a number that is free {verdict}", output(LOADER, *verdict, *sample_files("effect-2", "effect-3"))[0], LOAD)
        vectors = LOAD if verdict == MENDED else DO_NOT_LOAD
        for old, new in ((1, 1), (1, 2), (2, 3), (1, 3), (4, 4)):
            suite.equal(f"wheel {old} {new} {verdict}", output(LOADER, *verdict, *sample_files(f"wheel-{old}", f"wheel-{new}"))[0], vectors)
        for old, new in ((3, 4), (4, 3), (1, 4)):
            suite.equal(f"wheel {old} {new} {verdict}", output(LOADER, *verdict, *sample_files(f"wheel-{old}", f"wheel-{new}"))[0], DO_NOT_LOAD)


def statuses(suite: Suite):
    """0 for Compatible alone, 1 for Breaking, 3 for a refusal, 2 for an answer that could not be printed; of a listing 0 or 3."""
    old, new = suite.sample(2)
    for options in (*VERDICTS, ["--counts"]):
        suite.equal(f"Compatible {options}", output(LOADER, *options, old, old), (0, "Compatible;Patch;0\n"))
        suite.equal(f"Compatible, Minor {options}", output(LOADER, *options, *suite.open_enum(2))[0], 0)
        suite.equal(f"Breaking {options}", output(LOADER, *options, old, new)[0], 1)
        suite.equal(f"refused {options}", output(LOADER, *options, old, "/dev/null"), (3, "refused 2 new\n"))
    suite.equal("a pair refused", output(LOADER, *MENDED, *SAMPLE), (3, MIXED))
    suite.equal("listed", output(LOADER, "--list", old), (0, "0;message;Drive\n"))
    suite.equal("not listed", output(LOADER, "--list", "/dev/null"), (3, "refused 2 old\n"))
    for words in ([old, old], [old, new], ["/dev/null", new], ["--list", old], ["--help"], ["--version"]):
        with open("/dev/full", "w") as full:
            done = subprocess.run([LOADER, *words], stdout=full, stderr=subprocess.DEVNULL)
        suite.equal(f"what can't be printed: {words}", done.returncode, 2)
        suite.equal(f"what nobody reads: {words}", unread(LOADER, *words), 2)


def unread(*words) -> int:
    """The exit status of a command whose output goes into a pipe that nobody reads."""
    ours, theirs = os.pipe()
    os.close(ours)
    done = subprocess.run([str(word) for word in words], stdout=theirs, stderr=subprocess.DEVNULL)
    os.close(theirs)
    return done.returncode


def usage(suite: Suite):
    for words in bad_usage():
        status, printed, said = told(LOADER, *words)
        suite.equal(f"usage: {words}", (status, printed, said.partition(" [")[0]), (FAILED, "", "usage: vexil-compat"))


def asked_for_help(suite: Suite):
    status, help_text, said = told(LOADER, "--help")
    suite.equal("--help", (status, help_text.partition(" [")[0], said), (0, "usage: vexil-compat", ""))
    readme = (ROOT / "README.md").read_text()
    named = "0 Compatible, or listed; 1 Breaking; 3 refused; 2 bad usage, no build, or an answer that could not be printed"
    suite.equal("--help has the statuses", named in help_text, True)
    for page in (help_text, readme):
        page = " ".join(page.split())
        needed = ("needs images of format 2 on both sides, or of format 3 on both", "`Format::Three`", "`Format::Two`")
        suite.equal("it has what --mended needs", [words for words in needed if words not in page], [])
    suite.equal("README has the usage", "".join(f"    {line}\n" for line in help_text.partition("\n\n")[0].splitlines()) in readme, True)
    status, printed, said = told(LOADER, "--version")
    suite.equal("--version", (status, printed.partition(", toolchain ")[0], said), (0, f"vexil-compat {version()}", ""))


def refusals(suite: Suite):
    """A refusal says what is wrong with which file and where, an answer says nothing more."""
    (old, new), (good, damaged) = suite.sample(2), sample_files("drive-1", "damaged")
    for options in (*VERDICTS, ["--counts"]):
        suite.equal(f"an answer {options}", told(LOADER, *options, old, new)[2], "")
        suite.refused(f"damaged, new {options}", [*options, good, damaged], "refused 9 new\n", f"{damaged}: {DAMAGED}")
        suite.refused(f"damaged, old {options}", [*options, damaged, good], "refused 9 old\n", f"{damaged}: {DAMAGED}")
    suite.refused("damaged, listed", ["--list", damaged], "refused 9 old\n", f"{damaged}: {DAMAGED}")
    suite.equal("listed", told(LOADER, "--list", old)[2], "")
    short = suite.image("short", old.read_bytes()[:44])
    suite.refused("a short one", [short, new], "refused 5 old\n", f"{short}: refused 5: contents: entry 0, at byte 8: entry past the end, 2 bytes")
    long = suite.image("long", bytes(40_000))
    suite.refused("a long one", [old, long], "refused 1 new\n", f"{long}: refused 1: long: over 32768 bytes")


def mixed(suite: Suite):
    """Of refusal 16 it is said which image has which format, and what the mended verdict needs."""
    advice = '(--mended needs format 3 on both sides, or 2 on both, export with `Format::Three` or `Format::Two`: README, "How to make images")'
    images = [(suite.sample(number)[0], number) for number in (1, 2, 3)]
    for (old, of_old), (new, of_new) in itertools.product(images, repeat=2):
        if of_old == of_new != 1:
            suite.equal(f"both of format {of_old}", told(LOADER, *MENDED, old, new), (LOAD, "Compatible;Patch;0\n", ""))
        else:
            suite.refused(f"{of_old} {of_new}", [*MENDED, old, new], MIXED, f"{old}: refused 16: mixed: format {of_old}; {new}: format {of_new} {advice}")
        for verdict in (PLAIN, IMPORTS):
            suite.equal(f"{of_old} {of_new} {verdict}", told(LOADER, *verdict, old, new), (LOAD, "Compatible;Patch;0\n", ""))


def of_widths(suite: Suite):
    """What is wrong with a width is said as with any other byte."""
    text = "format 2\nnamespace\ndeclares Lamps#0 Mode#1\n\n#0 flags Lamps width 2\n  @0 red\n\n#1 enum Mode width 8\n"
    image = suite.made("widths", text).read_bytes()
    at, good = image.index(b"Lamps") + 5, suite.image("good", image)
    for width in (0, 3, 5, 7, 9, 16, 255):
        bad = suite.image("bad", image[:at] + bytes([width]) + image[at + 1 :])
        why = f"{bad}: refused 9: code: entry 0, flags 'Lamps', at byte {at}: width {width}"
        suite.refused(f"flags of width {width}", [good, bad], "refused 9 new\n", why)
    cut = suite.image("cut", image[:14] + bytes([7]) + image[15:-3])
    why = f"{cut}: refused 8: body: entry 1, enum 'Mode', at byte {len(image) - 3}: width, 1 byte missing"
    suite.refused("an enum without a width", ["--list", cut], "refused 8 old\n", why)
    first = suite.image("first", in_format(image, 1))
    why = f"{first}: refused 8: body: entry 0, flags 'Lamps', at byte {at + 11}: name length, 1 byte missing"
    suite.refused("a width in format 1", [first, good], "refused 8 old\n", why)


def of_tombstones(suite: Suite):
    """Of a body that ends within its tombstones it is said which of them is missing, and where."""
    count, number = ("tombstone count", 2), ("tombstone", 4)
    for name, items, parts in (
        ("flags 'Lamps'", "#0 flags Lamps width 1\n  struck 5 7\n  @0 red\n", (count, number, number)),
        ("union 'Lit'", "#0 union Lit\n  struck 4\n  @0 On\n    struck 6\n", (count, number, count, number)),
    ):
        good = suite.made("struck", f"format 3\nnamespace\ndeclares {name.split()[1][1:-1]}#0\n\n{items}")
        image, at = good.read_bytes(), good.stat().st_size - sum(size for _, size in parts)
        for what, size in parts:
            for kept in range(size):
                cut, left = suite.image("cut", shortened(image, at + kept)), size - kept
                why = f"{cut}: refused 8: body: entry 0, {name}, at byte {at}: {what}, {left} byte{'s' * (left > 1)} missing"
                suite.refused(f"{name} of {at + kept} bytes", [good, cut], "refused 8 new\n", why)
            at += size
    image = suite.made("struck", "format 3\nnamespace\ndeclares M#0\n\n#0 message M\n  struck 5 7\n").read_bytes()
    for name, bad, at in (("fewer counted", image[:-10] + b"\1" + image[-9:], len(image) - 4), ("in format 2", in_format(image, 2), len(image) - 10)):
        path = suite.image("bad", bad)
        why = f"{path}: refused 8: body: entry 0, message 'M', at byte {at}: left over, {len(image) - at} bytes"
        suite.refused(f"tombstones, {name}", ["--list", path], "refused 8 old\n", why)


def shortened(image: bytes, length: int) -> bytes:
    """An image of one body that ends early."""
    (offset,) = struct.unpack_from("<H", image, 8)
    return image[:10] + struct.pack("<H", length - offset) + image[12:length]


def no_images(suite: Suite):
    """What is no image at all is said to be what it is."""
    old, empty, missing, text = SAMPLE[0], suite.image("empty", b""), suite.folder / "missing.img", SAMPLE[0].with_suffix(".txt")
    for path, why in (
        (empty, "refused 2: short head: the file is empty"),
        (suite.folder, "refused 2: short head: it is a folder"),
        (missing, "refused 2: short head: the file can't be opened: No such file or directory"),
        ("/proc/self/mem", "refused 2: short head: the file can't be read: Input/output error"),
    ):
        suite.refused(f"{why}, old", [path, old], "refused 2 old\n", f"{path}: {why}")
        suite.refused(f"{why}, new", [old, path], "refused 2 new\n", f"{path}: {why}")
        suite.refused(f"{why}, listed", ["--list", path], "refused 2 old\n", f"{path}: {why}")
    hint = '(this is a text and no image: README, "How to make images")'
    suite.refused("a text", [old, text], "refused 3 new\n", f"{text}: refused 3: format: at byte 0: format 24942 {hint}")
    accented = suite.image("accented", "message Tür\n// Größe, Höhe".encode())
    suite.refused("a text in UTF-8", [accented, old], "refused 3 old\n", f"{accented}: refused 3: format: at byte 0: format 25965 {hint}")
    erased = suite.image("erased", b"\xff" * 100)
    suite.refused("what is no text", [erased, old], "refused 3 old\n", f"{erased}: refused 3: format: at byte 0: format 65535")
    odd = suite.folder / "two words\n'quoted'.img"
    odd.write_bytes(b"")
    suite.refused("an odd name", [odd, old], "refused 2 old\n", f"{suite.folder}/two words?'quoted'.img: refused 2: short head: the file is empty")


def places(suite: Suite):
    """On all recorded images the place is the one that `oracle places` tells; on damaged ones the number is the library's."""
    program = suite.folder / "places"
    suite.equal("places.c builds", build(program, *SANITIZED, TESTS / "places.c", *WALK, library()), 0)
    images = [image for _, old, new, *_ in recorded() for image in (old, new)]
    found = subprocess.run([program], input=framed(images), stdout=subprocess.PIPE)
    suite.equal("places, status", found.returncode, 0)
    lines, wanted = found.stdout.decode().splitlines(), output(ORACLE, "places", ANSWERS)[1].splitlines()
    suite.equal("as many places as recorded images", (len(lines), len(wanted)), (len(images), len(images)))
    suite.equal("the places of recorded images", [pair for pair in zip(lines, wanted) if pair[0] != pair[1]][:1], [])
    done = subprocess.run([program], input=framed(damaged_images(images, 20_000)), stdout=subprocess.PIPE)
    suite.equal("the numbers of damaged images", (done.returncode, done.stdout[-200:] if done.returncode else b""), (0, b""))
    told_of = {line.split(b":")[0] for line in done.stdout.splitlines()}
    suite.equal("every number is among them", len(told_of - {b"accepted"}), 10)
    for what in (b": width ", b": tombstone, "):
        suite.equal(f"{what} is among them", what in done.stdout, True)


def damaged_images(images: list[bytes], count: int):
    """Recorded images with bytes changed, cut out or put in, always the same ones."""
    rng, small = random.Random(20_261_117), [image for image in images if 8 < len(image) < 2_000]
    for _ in range(count):
        image = bytearray(rng.choice(small))
        for _ in range(rng.randint(1, 3)):
            at = rng.randrange(len(image))
            way = rng.randrange(6)
            if way == 0:
                del image[at:]
            elif way == 1:
                image[at:at] = bytes(rng.randrange(256) for _ in range(rng.randint(1, 4)))
            else:
                image[at] = rng.choice([0, 1, 2, 3, 9, 33, 65, 255, rng.randrange(256)])
            if not image:
                break
        yield bytes(image)
    yield bytes(40_000)


def alias_pairs(suite: Suite):
    """Of refusal 11 the two entries are named, of many aliases the ones that are at fault, by the verdict that was asked."""
    old = suite.made("old-aliases", "format 2\nnamespace\ndeclares A#0 B#2 C#3\n\n#0 generic_alias A\n\n#1 empty\n\n#2 generic_alias B\n\n#3 generic_alias C\n")
    new = suite.made("new-aliases", "format 2\nnamespace\ndeclares D#0 C#1 B#2 E#3 C#4\n\n#0 generic_alias D\n\n#1 generic_alias C\n\n#2 generic_alias B\n\n#3 generic_alias E\n\n#4 config C\n")
    why = f"{old}: refused 11: alias pair: entry 2, generic_alias 'B', at byte 39; {new}: entry 2, generic_alias 'B', at byte 54"
    for verdict in VERDICTS:
        suite.refused(f"aliases {verdict}", [*verdict, old, new], "refused 11 both\n", why)
    text = "format 2\nnamespace\ndeclares M#0\n\n#0 message M\n  @0 f: B#1\n\n#1 generic_alias B\n\n#2 generic_alias C\n"
    imported = suite.made("imported-alias", text)
    why = f"{imported}: refused 11: alias pair: entry 1, generic_alias 'B', at byte 44; {imported}: entry 1, generic_alias 'B', at byte 44"
    suite.refused("an imported alias", [*IMPORTS, imported, imported], "refused 11 both\n", why)
    for verdict in VERDICTS:
        if verdict != IMPORTS:
            suite.equal(f"which is not listed {verdict}", told(LOADER, *verdict, imported, imported), (LOAD, "Compatible;Patch;0\n", ""))


def recorded_aliases(suite: Suite):
    """Of every recorded alias pair both aliases are named, with one name, where the image has them."""
    tried = 0
    for name, old, new, selectors, _ in recorded(suite.verdict):
        if selectors[0] == 11:
            tried += 1
            said = told(LOADER, *suite.call(suite.image("old", old), suite.image("new", new)))[2]
            found = re.findall(r"generic_alias '(\w*)', at byte (\d+)", said)
            kinds = [image[int(at)] for image, (_, at) in zip((old, new), found)]
            suite.equal(name, (said.count("\n"), kinds, len({alias for alias, _ in found})), (1, [6, 6], 1))
    suite.equal("10 pairs of aliases or more", tried >= 10, True)


def long_reports(suite: Suite):
    """An open enum with 155 variants more is Compatible, however long its report is."""
    old, new = suite.open_enum(155)
    status, printed = output(LOADER, *suite.call(old, new))
    suite.equal("155 variants", (status, printed.splitlines()[-1], len(printed) > 65_536), (LOAD, "Compatible;Minor;155", True))
    suite.equal("155 variants, by the oracle", (status, printed), suite.asked(old, new))


def calls(suite: Suite):
    """One values call and one report call for an answer, by whichever verdict, one values call for the refusal of an image, or of
    the formats of two."""
    program, (old, new) = suite.folder / "counted", suite.sample(2)
    names = re.findall(r"^uint64_t (\w+)\(", HEADER.read_text(), re.MULTILINE)
    wraps = [f"-Wl,--wrap={name}" for name in names]
    suite.equal("counted.c builds", build(program, *wraps, TESTS / "counted.c", *SOURCES, library()), 0)
    made = [(["--list", old], "listing 1 listing_verdict 2"), (["--list", "/dev/null"], "listing_verdict 1"), ([*MENDED, *SAMPLE], "values 1")]
    for verdict in VERDICTS:
        made += [([*verdict, old, new], "values 1 report 1"), ([*verdict, "--counts", old, new], "values 1 report 1")]
        made += [([*verdict, old, "/dev/null"], "values 1")]
    for words, wanted in made:
        status, printed, said = told(program, *words)
        suite.equal(f"calls of {words}", said.splitlines()[-1], f"calls: {wanted}")
        suite.equal(f"the answer to {words}", (status, printed), output(LOADER, *words))


def overruns(suite: Suite):
    """The guard pages are where they must be: a library that takes one byte too many faults."""
    program = suite.folder / "overrun"
    for place in ("OLD_IMAGE", "NEW_IMAGE", "VALUES_BUFFER", "REPORT_BUFFER"):
        suite.equal(f"overrun.c at {place} builds", build(program, f"-DOVERRUN={place}", *SOURCES, TESTS / "overrun.c"), 0)
        calls = [[*verdict, *images] for verdict in VERDICTS for images in (SAMPLE, ["/dev/null", "/dev/null"])]
        if place in ("OLD_IMAGE", "REPORT_BUFFER"):
            calls += [["--list", SAMPLE[0]], ["--list", "/dev/null"]]
        for words in calls:
            suite.equal(f"a byte past {place}: {words}", output(program, *words)[0], -signal.SIGSEGV)


def under_valgrind(suite: Suite):
    if not shutil.which("valgrind"):
        print("left out: the loading tool under valgrind, which is not here")
        return
    calls = [["--list", SAMPLE[0]], ["/dev/null", SAMPLE[1]]]
    for verdict in VERDICTS:
        calls += [[*verdict, "--counts", *sample_files(*names)] for names in (("carousel-1", "carousel-3"), ("wheel-1", "wheel-4"))]
    for words in calls:
        suite.equal(f"valgrind {words}", output("valgrind", "-q", "--error-exitcode=99", LOADER, *words), output(LOADER, *words))
    words = sample_files("drive-1", "damaged")
    suite.equal("valgrind, a refusal", told("valgrind", "-q", "--error-exitcode=99", LOADER, *words), told(LOADER, *words))


if __name__ == "__main__":
    by_verdict = (
        by_each(formats, samples, files, both_bad, of_record, counts, long_reports, recorded_aliases),
        by_each(another_answer, verdicts=VERDICTS[1:]),
        counts_by_verdict,
        told_apart,
    )
    sayings = (refusals, mixed, of_widths, of_tombstones, no_images, places, alias_pairs)
    sys.exit(Suite.run(*by_verdict, listings, statuses, usage, asked_for_help, *sayings, calls, overruns, under_valgrind))

"""The pairs that a tool which compares two image files is tested on. What it prints is what `oracle report` and `oracle list` print.

It needs target/oracle/oracle.
"""

import itertools
import re
import struct
import subprocess
import tempfile
from pathlib import Path

ROOT = Path(__file__).resolve().parents[1]
ANSWERS = ROOT / "crates" / "replay" / "data" / "answers.bin"
ORACLE = ROOT / "target" / "oracle" / "oracle"
SAMPLE = [ROOT / "samples" / name for name in ("ride-old.img", "ride-new.img")]
SAMPLE_REPORT = "FieldAdded;Major;Drive;+limit;field 'limit' @1 was added\nBreaking;Major;1\n"
SIDES = ("none", "old", "new", "both")
MIXED = "refused 16 both\n"
# Pairs of samples whose difference no verdict sees.
NOT_SEEN = ("unresolved", "twice", "silent")
# Releases between which a number that was struck off is dropped, used, and both.
STRUCK = [(f"{name}-{old}", f"{name}-{new}") for name in ("lamp", "effect") for old, new in ((1, 2), (2, 3), (1, 3))]
# A verdict is the words that ask for it, of a tool and of the oracle. The recorded answers have them in this order.
VERDICTS = PLAIN, IMPORTS, MENDED = (), ("--imports",), ("--mended",)


def in_format(image: bytes, number: int) -> bytes:
    """An image of format 1 or 2 under another number: in the other of the two, if it has neither enums nor flags, which alone have other bytes there."""
    return number.to_bytes(2, "little") + image[2:]


def in_format_3(image: bytes, *struck: int) -> bytes:
    """An image of format 2 in format 3, with these numbers struck off; its one body is a message, an enum or flags."""
    (length,) = struct.unpack_from("<H", image, 10)
    tombstones = struct.pack(f"<H{len(struck)}I", len(struck), *struck)
    return in_format(image[:10] + struct.pack("<H", length + len(tombstones)) + image[12:] + tombstones, 3)


class Record:
    """The file of recorded answers, read from front to back; tools/oracle/README.md gives its form."""

    def __init__(self, data: bytes):
        assert data[:8] == b"VEXANSW6", f"recorded answers of another form: {data[:8]}"
        self.data, self.at = data, 8
        self.pairs, self.counts, *_ = self.numbers("6I")

    def numbers(self, form: str) -> list[int]:
        found = struct.unpack_from(f"<{form}", self.data, self.at)
        self.at += struct.calcsize(f"<{form}")
        return list(found)

    def text(self, length: str = "I") -> bytes:
        """So many bytes as a number before them says."""
        return self.bytes(*self.numbers(length))

    def bytes(self, count: int) -> bytes:
        self.at += count
        return self.data[self.at - count : self.at]

    def answer(self) -> tuple[list[int], bytes]:
        selectors = self.numbers("4B") + self.numbers(f"{1 + self.counts}I")
        return selectors, self.bytes(selectors[4])

    def pair(self) -> tuple:
        """Its name, its images, and of each verdict the answer."""
        name, old, new = self.text("B").decode(), self.text(), self.text()
        self.numbers("2B")
        for _ in range(2):
            self.text()  # the listings
        plain = self.answer()
        return name, old, new, [plain, *(self.answer() if self.numbers("B")[0] else plain for _ in VERDICTS[1:])]


def recorded(verdict: tuple = PLAIN):
    """Name, images, selectors and report of each pair of the recorded answers, by a verdict."""
    record = Record(ANSWERS.read_bytes())
    for _ in range(record.pairs):
        name, old, new, answers = record.pair()
        yield name, old, new, *answers[VERDICTS.index(verdict)]
    assert record.at == len(record.data), "bytes after the last recorded pair"


def told(*words, **options) -> tuple[int, str, str]:
    """The exit status of a command, what it printed, and what it said on standard error."""
    done = subprocess.run([str(word) for word in words], stdout=subprocess.PIPE, stderr=subprocess.PIPE, text=True, **options)
    return done.returncode, done.stdout, done.stderr


def output(*words, **options) -> tuple[int, str]:
    """The exit status of a command and what it printed."""
    return told(*words, **options)[:2]


class Suite:
    """The tests of one tool, called as TOOL OLD NEW, or with the words of `verdict` before them."""

    TOOL: Path
    REPORT_BYTES: int | None = None  # the longest report that it prints, if there is one

    def __init__(self, folder: Path):
        self.verdict = PLAIN
        self.folder = folder
        self.passed = 0
        self.failed = 0

    @classmethod
    def run(cls, *groups) -> int:
        """Runs groups of tests; the last line is `N passed, M failed`."""
        with tempfile.TemporaryDirectory() as folder:
            suite = cls(Path(folder))
            for tests in groups:
                tests(suite)
        print(f"{suite.passed} passed, {suite.failed} failed")
        return 1 if suite.failed else 0

    def status(self, printed: str) -> int:
        """The tool's exit status after it printed this."""
        raise NotImplementedError

    def listed_status(self, printed: str) -> int:
        """The tool's exit status after it printed this for --list."""
        raise NotImplementedError

    def call(self, old, new) -> list:
        """The words by which tool and oracle are asked for a report."""
        return [*self.verdict, old, new]

    def asked(self, old, new) -> tuple[int, str]:
        """What the tool has to answer, by the oracle."""
        words = ([] if self.REPORT_BYTES else ["--whole"]) + self.call(old, new)
        status, printed = output(ORACLE, "report", *words)
        assert status == 0, f"oracle report {words}: exit status {status}"
        return self.status(printed), printed

    def printed(self, selectors: list[int], report: bytes) -> str:
        """What the tool prints of a recorded answer."""
        number, side = selectors[:2]
        if number:
            return f"refused {number} {SIDES[side]}\n"
        return "refused 12 both\n" if self.REPORT_BYTES and len(report) > self.REPORT_BYTES else report.decode()

    def equal(self, name: str, found, wanted):
        if found == wanted:
            self.passed += 1
            return
        self.failed += 1
        print(f"failed: {' '.join([name, *self.verdict])}\n  found  {str(found)[:300]}\n  wanted {str(wanted)[:300]}")

    def files(self, name: str, old, new, text: str | None = None):
        """Two files: the answer is the oracle's, and this text if one is given."""
        wanted = self.asked(old, new)
        self.equal(name, output(self.TOOL, *self.call(old, new)), wanted if text is None else (wanted[0], text))
        if text is not None:
            self.equal(f"{name}, by the oracle", wanted[1], text)

    def listed(self, name: str, path, text: str | None = None):
        """The contents of one image, as TOOL --list IMAGE prints them: the oracle's, and this text if one is given."""
        status, printed = output(ORACLE, "list", path)
        assert status == 0, f"oracle list {path}: exit status {status}"
        self.equal(f"{name}, listed", output(self.TOOL, "--list", path), (self.listed_status(printed), printed))
        if text is not None:
            self.equal(f"{name}, listed by the oracle", printed, text)

    def images(self, name: str, old: bytes, new: bytes, text: str | None = None):
        self.files(name, self.image("old", old), self.image("new", new), text)

    def image(self, name: str, image: bytes) -> Path:
        path = self.folder / f"{name}.img"
        path.write_bytes(image)
        return path

    def sample(self, number: int) -> list[Path]:
        """The sample pair in a format; all verdicts read formats 2 and 3."""
        images = [in_format_3(path.read_bytes()) if number == 3 else in_format(path.read_bytes(), number) for path in SAMPLE]
        return [self.image(f"{path.stem}-{number}", image) for path, image in zip(SAMPLE, images)]


def by_each(*groups, verdicts=VERDICTS):
    """Groups of tests, by one verdict after the other."""

    def run_groups(suite: Suite):
        for suite.verdict in verdicts:
            for tests in groups:
                tests(suite)
        suite.verdict = PLAIN

    return run_groups


def sample_files(*names: str) -> list[Path]:
    return [ROOT / "samples" / f"{name}.img" for name in names]


def remade(suite: Suite, name: str, number: int) -> Path:
    """A sample of format 2 or 3 as another format has it, made by the oracle from its text."""
    text, image = (suite.folder / f"{name}-{number}.{ending}" for ending in ("txt", "img"))
    lines = (ROOT / "samples" / f"{name}.txt").read_text().partition("\n")[2]
    if number < 3:
        lines = re.sub(r"(?m)^ +struck .*\n", "", lines)
    if number < 2:
        lines = re.sub(r"(?m) width \d+$", "", lines)
    text.write_text(lines if number == 1 else f"format {number}\n{lines}")
    assert told(ORACLE, "make", text, image)[0] == 0, f"oracle make {text}"
    return image


def remade_samples(suite: Suite, names: tuple):
    """A pair of samples in each format. Where tombstones tell them apart, the mended verdict is in format 2 the first one."""
    report = suite.asked(*sample_files(*names))[1]
    first = output(ORACLE, "report", *sample_files(*names))[1] if names in STRUCK else report
    for number, printed in ((1, MIXED if suite.verdict == MENDED else report), (2, first), (3, report)):
        suite.files(f"{names} in format {number}", *(remade(suite, name, number) for name in names), printed)


def formats(suite: Suite):
    """The sample pair in all formats, and samples in others than their own: the mended verdict needs format 2 on both sides, or 3 on both, the others
    read all alike."""
    for numbers in itertools.product((1, 2, 3), repeat=2):
        (old, swapped), (same, new) = map(suite.sample, numbers)
        read = suite.verdict != MENDED or numbers in ((2, 2), (3, 3))
        suite.files(f"the sample in {numbers}", old, new, SAMPLE_REPORT if read else MIXED)
        suite.files(f"against itself in {numbers}", old, same, "Compatible;Patch;0\n" if read else MIXED)
        suite.files(f"swapped in {numbers}", swapped, same)
    for names in [(f"{name}-old", f"{name}-new") for name in (*NOT_SEEN, "import", "width")] + STRUCK:
        remade_samples(suite, names)
    old, new = suite.sample(2)
    for number in (0, 4, 258, 259):
        other = suite.image("other", in_format(SAMPLE[0].read_bytes(), number))
        suite.files(f"format {number}, old", other, new, "refused 3 old\n")
        suite.files(f"format {number}, new", old, other, "refused 3 new\n")


def samples(suite: Suite):
    for names in (
        ("drive-1", "drive-2"), ("drive-2", "drive-3"), ("import-old", "import-new"), ("drive-1", "damaged"),
        ("carousel-1", "carousel-2"), ("carousel-2", "carousel-3"), ("carousel-1", "carousel-3"), ("wheel-1", "wheel-1"),
        ("wheel-1", "wheel-2"), ("wheel-2", "wheel-3"), ("wheel-1", "wheel-3"), ("wheel-3", "wheel-4"), ("wheel-1", "wheel-4"),
        ("width-old", "lamp-1"), ("lamp-2", "lamp-1"), *STRUCK,
    ):
        suite.files(" ".join(names), *sample_files(*names))
    for name in (*NOT_SEEN, "width"):
        old, new = sample_files(f"{name}-old", f"{name}-new")
        suite.files(name, old, new)
        result = "Breaking" if name == "width" and suite.verdict == MENDED else "Compatible"
        suite.equal(f"{name} is {result}", suite.asked(old, new)[1].splitlines()[-1].partition(";")[0], result)
    report = suite.asked(*sample_files("drive-2", "drive-3"))[1]
    for names in (("drive-2-refiled", "drive-3-refiled"), ("drive-2-refiled", "drive-3"), ("drive-2", "drive-3-refiled")):
        suite.files(" ".join(names), *sample_files(*names), report)


def files(suite: Suite):
    old, missing = SAMPLE[0], suite.folder / "missing.img"
    suite.files("a missing file, old", missing, old, "refused 2 old\n")
    suite.files("a missing file, new", old, missing, "refused 2 new\n")
    suite.files("two missing files", missing, missing, "refused 2 old\n")
    suite.files("a folder", old, suite.folder, "refused 2 new\n")
    ride = old.read_bytes()
    for length in (32_769, 100_000):
        suite.images(f"{length} bytes, old", ride.ljust(length, b"\0"), ride, "refused 1 old\n")
        suite.images(f"{length} bytes, new", ride, ride.ljust(length, b"\0"), "refused 1 new\n")
    suite.images("32,768 bytes", ride.ljust(32_768, b"\0"), ride, "refused 5 old\n")


def both_bad(suite: Suite):
    short, other_format = b"\1\0", b"\4\0\0\0\0\0\0\0"
    suite.images("both bad, the old answers", short, other_format, "refused 2 old\n")
    suite.images("both bad, swapped", other_format, short, "refused 3 old\n")


def of_record(suite: Suite):
    """The first recorded pair of each refusal and side, of each bump, and those with long reports."""
    seen, texts = set(), set()
    for name, old, new, selectors, report in recorded(suite.verdict):
        number, side, bump = selectors[:3]
        if "report of " in name or "11 before 12" in name or (number, side, bump) not in seen:
            texts.add(suite.printed(selectors, report))
            suite.images(name, old, new, suite.printed(selectors, report))
        seen.add((number, side, bump))
    refusals = {(number, side) for number in range(1, 11) for side in (1, 2)} | {(11, 3)} | ({(16, 3)} if suite.verdict == MENDED else set())
    suite.equal("every refusal on every side", {(number, side) for number, side, _ in seen if number}, refusals)
    suite.equal("a report that is too long is refused", "refused 12 both\n" in texts, bool(suite.REPORT_BYTES))
    lengths = {len(text) for text in texts}
    is_long = max(lengths) > 65_536 if suite.verdict == MENDED else 80_000 in lengths
    suite.equal("a report of 80,000 bytes, and a mended one over 65,536, is printed", is_long, not suite.REPORT_BYTES)
    suite.equal("every bump", {bump for number, _, bump in seen if not number}, {0, 1, 2})


def listings(suite: Suite):
    """The contents of named images, and of the recorded ones, of each length and each refusal the first."""
    suite.listed("the sample", SAMPLE[0], "0;message;Drive\n")
    for number in (1, 2, 3):
        suite.listed(f"no entries, format {number}", suite.image("old", in_format(bytes(8), number)), "")
        suite.listed(f"the sample, format {number}", suite.sample(number)[0], "0;message;Drive\n")
    suite.listed("a missing file", suite.folder / "missing.img", "refused 2 old\n")
    suite.listed("a folder", suite.folder, "refused 2 old\n")
    seen = set()
    for name, old, _, (number, side, *_), _ in recorded():
        if (len(old), number if side == 1 else 0) not in seen:
            suite.listed(name, suite.image("old", old))
        seen.add((len(old), number if side == 1 else 0))
    suite.equal("every refusal of an image, listed", {number for _, number in seen}, set(range(11)))

#!/usr/bin/env python3
"""Tests of the small program vexil_compat. What it prints is what `oracle report` and `oracle list` print; its exit status is always 0.

It needs target/bin/vexil_compat (build.sh) and target/oracle/oracle. The last line is `N passed, M failed`.
"""

import re
import subprocess
import sys
from pathlib import Path

ROOT = Path(__file__).resolve().parents[2]
sys.path.append(str(ROOT / "tools"))
import pairs  # noqa: E402
from pairs import SAMPLE, SAMPLE_REPORT, both_bad, files, formats, listings, of_record, output, samples, told  # noqa: E402

CRATE = ROOT / "crates" / "program"
PROGRAM = ROOT / "target" / "bin" / "vexil_compat"
# A guard against a hang: a file without end, read whole, takes for ever.
GUARD_SECONDS = 60
# The image that 01 writes out.
RIDE = bytes.fromhex(
    "01 00 01 00 01 00 01 00 15 00 19 00 00 00 00 00 04 72 69 64 65 00 05 44 72 69 76 65 00 01 00 00 00 00 00 05 73 70 65 65 64 00 00 00 00 02"
)


class Suite(pairs.Suite):
    TOOL = PROGRAM
    REPORT_BYTES = 65_536

    def status(self, printed: str) -> int:
        return 0

    listed_status = status

    def in_folder(self, name: str, text: str, **images: bytes):
        """Without arguments, in a folder of these images."""
        folder = self.folder / name
        folder.mkdir()
        for side, image in images.items():
            (folder / f"{side}.img").write_bytes(image)
        self.equal(name, output(PROGRAM, cwd=folder), (0, text))
        self.equal(f"{name}, by the oracle", self.asked(folder / "old.img", folder / "new.img")[1], text)

    def on_standard_error(self, name: str, start: str, lines: int, *words, stdout=subprocess.PIPE):
        """Nothing is printed but so many lines on standard error, which start so."""
        done = subprocess.run([PROGRAM, *words], stdout=stdout, stderr=subprocess.PIPE, text=True, cwd=CRATE / "data")
        said = done.stderr
        self.equal(name, (done.stdout or "", said[: len(start)], said.count("\n"), said[-1:]), ("", start, lines, "\n"))


def of_the_gate(suite: Suite):
    """What the program is run on by `rt ci` is the sample pair, and the old image is the one of 01."""
    suite.equal("the image of 01", SAMPLE[0].read_bytes(), RIDE)
    for path, side in zip(SAMPLE, ("old", "new"), strict=True):
        suite.equal(f"data/{side}.img", (CRATE / "data" / f"{side}.img").read_bytes(), path.read_bytes())
    suite.equal("stdout", (CRATE / "stdout").read_text(), SAMPLE_REPORT)


def without_arguments(suite: Suite):
    old, new = (path.read_bytes() for path in SAMPLE)
    suite.in_folder("both", SAMPLE_REPORT, old=old, new=new)
    suite.in_folder("the same twice", "Compatible;Patch;0\n", old=old, new=old)
    suite.in_folder("old only", "refused 2 new\n", old=old)
    suite.in_folder("new only", "refused 2 old\n", new=new)
    suite.in_folder("none", "refused 2 old\n")


def paths(suite: Suite):
    old, new = SAMPLE
    for name, path in (("empty", ""), ("of 4,095 bytes", "p" * 4095), ("of 4,096 bytes", "p" * 4096), ("of 9,000 bytes", "p" * 9000)):
        suite.files(f"a path {name}, old", path, new, "refused 2 old\n")
        suite.files(f"a path {name}, new", old, path, "refused 2 new\n")
    unreadable = bytes(suite.folder) + b"/\xff.img"
    with open(unreadable, "wb") as file:
        file.write(old.read_bytes())
    suite.equal("a path that is not UTF-8, old", output(PROGRAM, unreadable, new), (0, "refused 2 old\n"))
    suite.equal("a path that is not UTF-8, new", output(PROGRAM, old, unreadable), (0, "refused 2 new\n"))
    suite.files("the longest path that can be opened", str(old).rjust(4095, "/"), new, SAMPLE_REPORT)
    dashed = suite.folder / "-old.img"
    dashed.write_bytes(old.read_bytes())
    suite.equal("a name that starts as an option does", output(PROGRAM, "./-old.img", new, cwd=suite.folder), (0, SAMPLE_REPORT))


def long_files(suite: Suite):
    """Files that can't be read whole."""
    old, new = SAMPLE
    huge = suite.folder / "huge.img"
    with open(huge, "wb") as file:
        file.truncate(1 << 30)
    for name, path in (("a file of 1 GiB", huge), ("a file without end", "/dev/zero")):
        suite.equal(f"{name}, old", output(PROGRAM, path, new, timeout=GUARD_SECONDS), (0, "refused 1 old\n"))
        suite.equal(f"{name}, new", output(PROGRAM, old, path, timeout=GUARD_SECONDS), (0, "refused 1 new\n"))
    suite.equal("a file without end, listed", output(PROGRAM, "--list", "/dev/zero", timeout=GUARD_SECONDS), (0, "refused 1 old\n"))
    suite.equal("two files without end", output(PROGRAM, "/dev/zero", "/dev/zero", timeout=GUARD_SECONDS), (0, "refused 1 old\n"))


def pieces(suite: Suite):
    """An image that comes in pieces, through a pipe, is read to its end."""
    old, new = SAMPLE
    script = '(head -c 9 "$1"; sleep 0.2; tail -c +10 "$1") | "$0" /dev/stdin "$2"'
    suite.equal("an image in two pieces", output("sh", "-c", script, PROGRAM, old, new), (0, SAMPLE_REPORT))


def usage(suite: Suite):
    old, new = SAMPLE
    calls = {
        "one argument": [old],
        "one argument that is not UTF-8": [b"\xff"],
        "three arguments": [old, new, new],
        "an unknown option": ["--counts"],
        "an unknown option before a path": ["--counts", old],
        "an unknown option after a path": [old, "--counts"],
        "an unknown option before two paths": ["--counts", old, new],
        "a dash": ["-", new],
        "--list": ["--list"],
        "--list and two images": ["--list", old, new],
        "--list and an option": ["--list", "--list"],
    }
    for name, words in calls.items():
        suite.on_standard_error(name, "usage: vexil_compat ", 2, *words)


def asked_for_help(suite: Suite):
    """Who may take the status for an answer is told that it is none, with the usage and in the README."""
    usage_text = told(PROGRAM, "--counts")[2]
    suite.equal("--help", told(PROGRAM, "--help"), (0, usage_text, ""))
    suite.equal("its usage tells of its status", "The exit status is always 0 and means nothing" in usage_text, True)
    readme = " ".join((ROOT / "README.md").read_text().split())
    suite.equal("so does the README", "Its exit status is always 0 and means nothing" in readme, True)
    header = (ROOT / "include" / "vexil_compat.h").read_text()
    version = re.search(r'VEXIL_COMPAT_VERSION "(.*)"', header)[1]
    suite.equal("--version", told(PROGRAM, "--version"), (0, f"vexil_compat {version}\n", ""))


def without_output(suite: Suite):
    """An answer that can't be printed is told on standard error."""
    for name, words in (("report", SAMPLE), ("refusal", ["/dev/null", "/dev/null"]), ("help", ["--help"]), ("version", ["--version"])):
        with open("/dev/full", "w") as full:
            suite.on_standard_error(f"a {name} that can't be printed", "vexil_compat: standard output: ", 1, *words, stdout=full)


if __name__ == "__main__":
    groups = (of_the_gate, formats, samples, files, both_bad, of_record, without_arguments, paths, long_files, pieces, listings)
    sys.exit(Suite.run(*groups, usage, asked_for_help, without_output))

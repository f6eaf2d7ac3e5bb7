#!/usr/bin/env python3
"""Tests of `./vexil-compat` and of how it builds, in a copy of the repository with three small crates and an `rt` and a `rattle` that stand
in for the toolchain: they prove nothing, and the library that they make answers what a file of a crate says, so that an answer tells from which build it is.

The script of the repository itself is asked last; it needs target/loader/loader (build.sh). The last line is `N passed, M failed`.
"""

import os
import pty
import re
import shutil
import signal
import subprocess
import sys
import time
from pathlib import Path

from suite import HERE, ROOT, Suite, bad_usage, version
from pairs import IMPORTS, MENDED, PLAIN, SAMPLE, SAMPLE_REPORT, output, sample_files, told

KIT = (ROOT / "KIT-ID").read_text().strip()
LONG_AGO = 946_684_800  # 2000-01-01
BUILT = ["ci", "build"]
# Say what they are asked for in $CALLS, and that two of it ran at once if they did. A crate takes $SECONDS_EACH.
RT = """#!/usr/bin/env bash
set -eu
case $1 in
version) echo "${OTHER_KIT:-@KIT@}" ;;
ci)
    if ! mkdir busy 2> /dev/null; then echo overlap >> "$CALLS"; fi
    echo ci >> "$CALLS"
    for crate in $(ls crates); do
        sleep "${SECONDS_EACH:-0}"
        if grep -q unprovable "crates/$crate/src/lib.rt"; then rmdir busy; echo "rt: $crate NOT PROVED"; exit 1; fi
        mkdir -p "crates/$crate/out/rlib"
        touch "crates/$crate/out/rlib/$crate.rlib"
    done
    rmdir busy
    ;;
esac
"""
RATTLE = """#!/usr/bin/env bash
set -eu
echo "$1" >> "$CALLS"
below=$(tr ' ' '\\n' <<< "$*" | sed -n 's/^below=//p')
[ -e "$below" ]
sleep "${SECONDS_EACH:-0}"
if grep -q unprovable src/lib.rt; then echo "vexil_compat is not proved"; exit 1; fi
cp "$LIBRARIES/$(cat "${below%/out/*}/src/lib.rt").a" "${@: -1}"
"""
# A library that answers every pair alike.
ANSWER = """#include "vexil_compat.h"
#include <string.h>
static const char report[] = TEXT;
#define PAIR const uint8_t *o, size_t ol, const uint8_t *n, size_t nl
#define UNUSED (void)o, (void)ol, (void)n, (void)nl
uint64_t vexil_compat_values(PAIR, uint64_t *values, size_t count)
{
    UNUSED;
    memset(values, 0, count * sizeof *values);
    values[VEXIL_COMPAT_SELECT_LENGTH] = sizeof report - 1;
    return 0;
}
uint64_t vexil_compat_report(PAIR, uint8_t *out, size_t out_len) { UNUSED; memcpy(out, report, out_len); return out_len; }
uint64_t vexil_compat_verdict(PAIR, uint64_t selector) { UNUSED; (void)selector; return 0; }
#define LIKEWISE(calls) \\
    uint64_t calls##values(PAIR, uint64_t *values, size_t count) { return vexil_compat_values(o, ol, n, nl, values, count); } \\
    uint64_t calls##report(PAIR, uint8_t *out, size_t out_len) { return vexil_compat_report(o, ol, n, nl, out, out_len); } \\
    uint64_t calls##verdict(PAIR, uint64_t selector) { return vexil_compat_verdict(o, ol, n, nl, selector); }
LIKEWISE(vexil_compat_imports_)
LIKEWISE(vexil_compat_mended_)
uint64_t vexil_compat_listing(const uint8_t *i, size_t l, uint8_t *out, size_t out_len) { (void)i, (void)l, (void)out, (void)out_len; return 0; }
uint64_t vexil_compat_listing_verdict(const uint8_t *i, size_t l, uint64_t m, uint64_t s) { (void)i, (void)l, (void)m, (void)s; return 0; }
"""


class Copy:
    """A repository that is built in no time."""

    def __init__(self, folder: Path):
        self.root, self.bin, self.libraries, self.calls, self.cache = (folder / name for name in ("copy", "bin", "libraries", "calls", "cache"))
        for name in ("include", "samples", "tools/loader"):
            shutil.copytree(ROOT / name, self.root / name)
        for name in ("vexil-compat", "KIT-ID", "tools/proved.sh"):
            shutil.copy(ROOT / name, self.root / name)
        (self.root / "crates.txt").write_text("below:\nbeside:\nvexil_compat: below\n")
        for crate in ("below", "beside", "vexil_compat"):
            self.write(f"crates/{crate}/src/lib.rt", "first")
        self.bin.mkdir()
        for name, text in (("rt", RT.replace("@KIT@", KIT)), ("rattle", RATTLE)):
            (self.bin / name).write_text(text)
            (self.bin / name).chmod(0o755)
        self.libraries.mkdir()
        for answer in ("first", "second"):
            self.make_library(answer)
        self.calls.touch()

    def make_library(self, answer: str):
        source = self.libraries / f"{answer}.c"
        source.write_text(ANSWER.replace("TEXT", f'"{answer}\\n"'))
        subprocess.run(["gcc", "-O1", "-I", ROOT / "include", "-c", "-o", source.with_suffix(".o"), source], check=True)
        subprocess.run(["ar", "rcs", source.with_suffix(".a"), source.with_suffix(".o")], check=True)

    def write(self, path: str, text: str, date: float | None = None):
        file = self.root / path
        file.parent.mkdir(parents=True, exist_ok=True)
        file.write_text(text)
        if date is not None:
            os.utime(file, (date, date))

    def environment(self, rt: bool = True, **more: str) -> dict[str, str]:
        """With the stand-in on the path, or without any `rt`."""
        path = f"{self.bin}:/usr/bin:/bin" if rt else "/usr/bin:/bin"
        kept = {name: value for name, value in os.environ.items() if not name.startswith("VEXIL_COMPAT")}
        return {**kept, "PATH": path, "CALLS": str(self.calls), "LIBRARIES": str(self.libraries), "XDG_CACHE_HOME": str(self.cache), **more}

    def asked(self, *words, **environment) -> tuple[int, str, str]:
        return told(self.root / "vexil-compat", *words, env=self.environment(**environment))

    def builds(self) -> list[str]:
        """What `rt` was asked to build since this was last called."""
        made = self.calls.read_text().split()
        self.calls.write_text("")
        return made


def stale(suite: Suite, copy: Copy):
    """By content, and not by date: the answer is always that of the files that are there."""
    first, second = (0, "first\n", ""), (0, "second\n", "")
    suite.equal("the first call builds", (copy.asked(), copy.builds()), (first, BUILT))
    suite.equal("the second does not", (copy.asked(), copy.builds()), (first, []))
    copy.write("crates/below/src/lib.rt", "second", LONG_AGO)
    suite.equal("a file of another content with an older date", (copy.asked(), copy.builds()), (second, BUILT))
    copy.write("crates/below/src/lib.rt", "second")
    suite.equal("a file of the same content with a newer date", (copy.asked(), copy.builds()), (second, []))
    copy.write("crates/below/src/lib.rt", "first", LONG_AGO)
    suite.equal("back again", (copy.asked(), copy.builds()), (first, BUILT))
    for path in ("crates/vexil_compat/specs/New.antt", "crates/below/proofs/New.antt", "crates/below/src/lib.rt"):
        copy.write(path, "first", LONG_AGO)
        copy.asked()
        again = [] if path.endswith("lib.rt") else BUILT
        suite.equal(f"with {path}", copy.builds(), again)
    (copy.root / "crates/below/proofs/New.antt").rename(copy.root / "crates/below/proofs/Other.antt")
    suite.equal("a file of another name", (copy.asked(), copy.builds()), (first, BUILT))


def stale_by_others(suite: Suite, copy: Copy):
    """By what the library rests on, directly or by another crate, and by what a link leads to."""
    first = (0, "first\n", "")
    copy.write("crates.txt", "below:\nbeside:\nvexil_compat: below beside\n", LONG_AGO)
    suite.equal("the library rests on one crate more", (copy.asked(), copy.builds()), (first, BUILT))
    copy.write("crates.txt", "below: beside\nbeside:\nvexil_compat: below beside\n", LONG_AGO)
    suite.equal("a crate rests on another", (copy.asked(), copy.builds()), (first, BUILT))
    copy.write("crates.txt", "below : beside # and not\nbeside:\nvexil_compat: below\n", LONG_AGO)
    suite.equal("and the library on that one alone", (copy.asked(), copy.builds()), (first, BUILT))
    copy.write("crates/beside/src/lib.rt", "other", LONG_AGO)
    suite.equal("a crate below the crate below", (copy.asked(), copy.builds()), (first, BUILT))
    copy.write("elsewhere", "linked")
    (copy.root / "crates/below/specs").mkdir()
    (copy.root / "crates/below/specs/Linked.antt").symlink_to(copy.root / "elsewhere")
    suite.equal("a file by a link", (copy.asked(), copy.builds()), (first, BUILT))
    copy.write("elsewhere", "linked to another")
    suite.equal("that has changed", (copy.asked(), copy.builds()), (first, BUILT))
    copy.write("crates.txt", "below:\nbeside:\n")
    status, printed, said = copy.asked()
    suite.equal("no line of the library", (status, printed, "no line of vexil_compat" in said), (2, "", True))
    copy.write("crates.txt", "below:\nbeside:\nvexil_compat: below beside\n", LONG_AGO)
    suite.equal("three crates again", (copy.asked(), copy.builds()), (first, BUILT))


def stale_beside(suite: Suite, copy: Copy):
    """By the library that is in its place and by the loading tool's own source, and not by what neither is made of."""
    first = (0, "first\n", "")
    for path in ("crates/below/must-fail/1.edit", "docs/NEW.md", "crates/other/src/lib.rt"):
        copy.write(path, "new")
        suite.equal(f"what the library is not made of: {path}", (copy.asked(), copy.builds()), (first, []))
    shutil.copy(copy.libraries / "second.a", copy.root / "target/staticlib/libvexil_compat.a")
    suite.equal("another library in its place", (copy.asked(), copy.builds()), (first, BUILT))
    os.remove(copy.root / "target/staticlib/libvexil_compat.a")
    suite.equal("no library in its place", (copy.asked(), copy.builds()), (first, BUILT))
    loader = copy.root / "tools/loader/loader.c"
    copy.write("tools/loader/loader.c", loader.read_text().replace("fwrite(out, 1, length", 'puts("mended"), fwrite(out, 1, length'), LONG_AGO)
    suite.equal("the loading tool's own source", (copy.asked(), copy.builds()), ((0, "mended\nfirst\n", ""), []))
    copy.write("tools/loader/loader.c", (HERE / "loader.c").read_text(), LONG_AGO)
    suite.equal("and back", copy.asked(), first)


def replaced(suite: Suite, copy: Copy):
    """A program that something else wrote is not run, and a call on a current build writes nothing."""
    first, folder = (0, "first\n", ""), copy.root / "target" / "loader"
    for name in ("words", "loader"):
        program = folder / name
        older = program.read_bytes()
        program.write_bytes(b"")
        suite.equal(f"{name} is empty", copy.asked(), first)
        suite.equal(f"{name} is built again", program.stat().st_size == len(older), True)
        program.write_bytes((folder / ("loader" if name == "words" else "words")).read_bytes())
        suite.equal(f"{name} is another program", copy.asked(), first)

    def dates():
        return {path: path.lstat().st_mtime_ns for path in copy.root.rglob("*")}

    before = dates()
    suite.equal("a current build", copy.asked(), first)
    suite.equal("is only read", dates() == before, True)


def edited(suite: Suite, copy: Copy):
    """What is edited during a proof does not pass for what was proved, whether the edit is undone afterwards or not."""
    words = {"stdout": subprocess.PIPE, "stderr": subprocess.PIPE, "text": True, "env": copy.environment(SECONDS_EACH="0.4")}
    for later in ("first", "second"):
        copy.write("crates/vexil_compat/src/lib.rt", f"to be {later}")
        copy.write("crates/below/src/lib.rt", "first")
        call = subprocess.Popen([copy.root / "vexil-compat"], **words)
        while not copy.calls.read_text() and call.poll() is None:
            time.sleep(0.02)
        copy.write("crates/below/src/lib.rt", "second")
        printed, said = call.communicate()
        suite.equal("edited during a proof", (call.returncode, printed, "changed while they were proved" in said), (2, "", True))
        copy.write("crates/below/src/lib.rt", later)
        suite.equal(f"and {later} afterwards", copy.asked(), (0, f"{later}\n", ""))
        copy.builds()
    copy.write("crates/below/src/lib.rt", "first")
    suite.equal("first again", (copy.asked(), copy.builds()), ((0, "first\n", ""), BUILT))


def at_once(suite: Suite, copy: Copy):
    """Of two calls on a stale build one builds and both answer; a call that is broken off leaves nothing that a later one takes."""
    copy.write("crates/below/src/lib.rt", "second")
    words = {"stdout": subprocess.PIPE, "stderr": subprocess.PIPE, "text": True, "env": copy.environment(SECONDS_EACH="0.4")}
    calls = [subprocess.Popen([copy.root / "vexil-compat"], **words) for _ in range(4)]
    answers = [(*call.communicate(), call.returncode) for call in calls]
    suite.equal("four at once answer", answers, [("second\n", "", 0)] * 4)
    suite.equal("and build once", copy.builds(), BUILT)
    copy.write("crates/below/src/lib.rt", "first")
    words = {**words, "env": copy.environment(SECONDS_EACH="20"), "start_new_session": True}
    # As from a terminal, also if whoever runs the tests ignores the signal.
    call = subprocess.Popen([copy.root / "vexil-compat"], preexec_fn=lambda: signal.signal(signal.SIGINT, signal.SIG_DFL), **words)
    while not copy.calls.read_text() and call.poll() is None:
        time.sleep(0.05)
    start = time.monotonic()
    suite.equal("who asks for help does not wait", (copy.asked("--help")[0], time.monotonic() - start < 10), (0, True))
    os.killpg(call.pid, signal.SIGINT)
    suite.equal("a call that is broken off answers nothing", (call.communicate()[0], call.returncode == 0), ("", False))
    for busy in copy.cache.glob("vexil_compat/*/vexil_compat/below/busy"):
        busy.rmdir()
    copy.builds()
    suite.equal("the next one builds", (copy.asked(), copy.builds()), ((0, "first\n", ""), BUILT))


def on_terminal(copy: Copy, **environment) -> str:
    """What a call says to a terminal on its standard error."""
    ours, theirs = pty.openpty()
    call = subprocess.Popen([copy.root / "vexil-compat"], stdout=subprocess.PIPE, stderr=theirs, env=copy.environment(**environment))
    os.close(theirs)
    said = b""
    while True:
        try:
            read = os.read(ours, 4096)
        except OSError:  # the other end is closed
            break
        if not read:
            break
        said += read
    call.communicate()
    os.close(ours)
    return said.decode()


def progress(suite: Suite, copy: Copy):
    """A terminal is shown which crate, how many of how many, and the time gone; anything else is shown nothing."""
    copy.write("crates/below/src/lib.rt", "second")
    said = on_terminal(copy, SECONDS_EACH="1.3")
    suite.equal("what it does", "vexil-compat: the library is proved first, 3 crates" in said, True)
    suite.equal("the first crate", bool(re.search(r"0 of 3 crates proved, now \w+ \(0:0\d\)", said)), True)
    suite.equal("the next", bool(re.search(r"1 of 3 crates proved, now \w+ \(0:0\d\)", said)), True)
    suite.equal("the last", bool(re.search(r"2 of 3 crates proved, now vexil_compat \(0:0\d\)", said)), True)
    suite.equal("a current build says nothing", on_terminal(copy), "")
    copy.write("crates/below/src/lib.rt", "first")
    suite.equal("no terminal, no word", copy.asked(SECONDS_EACH="0.2"), (0, "first\n", ""))
    copy.builds()


def no_build(suite: Suite, copy: Copy):
    """Without a build there is no answer: status 2 and what is missing."""
    current = (0, "first\n", "")
    for crate, why in (("vexil_compat", "vexil_compat is not proved"), ("below", "below NOT PROVED")):
        copy.write(f"crates/{crate}/src/lib.rt", "unprovable")
        status, printed, said = copy.asked()
        suite.equal(f"what is not proved: {crate}", (status, printed, why in said, "not proved; the whole log" in said), (2, "", True, True))
        suite.equal("nor the next time", copy.asked()[:2], (2, ""))
        copy.write(f"crates/{crate}/src/lib.rt", "first")
    suite.equal("proved again", copy.asked(), current)
    suite.equal("a current build needs no toolchain", copy.asked(rt=False), current)
    suite.equal("nor does it mind another", copy.asked(OTHER_KIT="rattle-kit-9"), current)
    copy.write("crates/vexil_compat/src/lib.rt", "again")
    status, printed, said = copy.asked(rt=False)
    suite.equal("no toolchain", (status, printed, "there is no rt here" in said, KIT in said), (2, "", True, True))
    status, printed, said = copy.asked(OTHER_KIT="rattle-kit-9")
    suite.equal("another toolchain", (status, printed, "here    rattle-kit-9\n" in said, f"KIT-ID  {KIT}\n" in said), (2, "", True, True))
    suite.equal("another toolchain, on demand", copy.asked(OTHER_KIT="rattle-kit-9", VEXIL_COMPAT_ANY_KIT="1"), current)
    copy.builds()
    suite.equal("what another proved is not taken without demand", (copy.asked(), copy.builds()), (current, BUILT))
    broken = copy.root / "tools/loader/refusals.c"
    copy.write("tools/loader/refusals.c", "broken")
    suite.equal("a loading tool that does not build", copy.asked()[:2], (2, ""))
    copy.write("tools/loader/refusals.c", (HERE / broken.name).read_text())
    suite.equal("that builds again", copy.asked(), current)


def words(suite: Suite, copy: Copy):
    """Bad usage and calls for help are answered before anything is built."""
    copy.write("crates/below/src/lib.rt", "second")
    for call in filter(None, bad_usage()):  # without a word it takes the sample pair
        status, printed, said = copy.asked(*call)
        suite.equal(f"usage: {call}", (status, printed, said.partition(" [")[0]), (2, "", "usage: vexil-compat"))
    status, printed, said = copy.asked("--help")
    suite.equal("--help", (status, printed.partition(" [")[0], said), (0, "usage: vexil-compat", ""))
    suite.equal("--version", copy.asked("--version"), (0, f"vexil-compat {version()}, toolchain {KIT}\n", ""))
    suite.equal("nothing was built", copy.builds(), [])


def of_repository(suite: Suite):
    """`./vexil-compat` itself, also from another folder and by a link, and with a library that it must not take."""
    tool, link = ROOT / "vexil-compat", suite.folder / "link"
    link.symlink_to(tool)
    elsewhere = {"cwd": suite.folder, "env": {**os.environ, "VEXIL_COMPAT_LIB": str(suite.folder)}}
    for name in (tool, link):
        suite.equal(f"the sample pair by {name.name}", told(name, **elsewhere), (1, SAMPLE_REPORT, ""))
    for verdict, imports, vectors in ((PLAIN, 0, 1), (IMPORTS, 1, 1), (MENDED, 0, 0)):
        suite.equal(f"an import that changes {verdict}", output(tool, *verdict, *sample_files("import-old", "import-new"))[0], imports)
        suite.equal(f"vectors that stay {verdict}", output(tool, *verdict, *sample_files("wheel-1", "wheel-3"))[0], vectors)
        suite.equal(f"refused {verdict}", output(tool, *verdict, SAMPLE[0], suite.folder), (3, "refused 2 new\n"))
    suite.equal("counts", output(tool, "--counts", *SAMPLE), (1, "FieldAdded 1\n" + SAMPLE_REPORT))
    suite.equal("listed", output(tool, "--list", SAMPLE[0]), (0, "0;message;Drive\n"))
    suite.equal("refused", output(tool, suite.folder / "nothing", SAMPLE[1]), (3, "refused 2 old\n"))
    with open("/dev/full", "w") as full:
        done = subprocess.run([tool, SAMPLE[0], SAMPLE[0]], stdout=full, stderr=subprocess.DEVNULL)
    suite.equal("a Compatible that can't be printed", done.returncode, 2)
    suite.equal("bad usage", output(tool, SAMPLE[0]), (2, ""))
    good, damaged = sample_files("drive-1", "damaged")
    why = f"vexil-compat: {damaged}: refused 9: code: entry 3, message 'Status', at byte 260: bits 71\n"
    suite.equal("damaged", told(tool, good, damaged), (3, "refused 9 new\n", why))


if __name__ == "__main__":

    def in_copy(tests):
        return lambda suite: tests(suite, suite.copy)

    def prepare(suite: Suite):
        suite.copy = Copy(suite.folder)

    sys.exit(Suite.run(prepare, *map(in_copy, (stale, stale_by_others, stale_beside, replaced, edited, at_once, progress, no_build, words)), of_repository))

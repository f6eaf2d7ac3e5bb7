#!/usr/bin/env python3
"""Tests of the C side: the header, what is installed, and what the header promises of the library: its calls, its stack, its words.

It needs target/loader/loader (build.sh) and target/oracle/oracle. The last line is `N passed, M failed`.
"""

import os
import re
import shutil
import subprocess
import sys

from suite import HEADER, HERE, ROOT, SANITIZED, TESTS, Suite, build, framed, kinds, library, version
from pairs import SAMPLE, SAMPLE_REPORT, VERDICTS, output, recorded, told

WARNINGS = ["-Wall", "-Wextra", "-Wpedantic", "-Wconversion", "-Werror"]
COMPILERS = {
    "gcc, C99": ["gcc", "-std=c99", *WARNINGS, "-x", "c"],
    "gcc, C17": ["gcc", "-std=c17", *WARNINGS, "-x", "c"],
    "g++, C++11": ["g++", "-std=c++11", *WARNINGS, "-Wold-style-cast", "-x", "c++"],
    "g++, C++20": ["g++", "-std=c++20", *WARNINGS, "-Wold-style-cast", "-x", "c++"],
}


def installed(suite: Suite):
    """`make install` installs the archive, the header, a file for pkg-config and the tool, which are all that a C programmer needs."""
    prefix = suite.folder / "installed"
    suite.equal("make install", output("make", "-s", "install", f"PREFIX={prefix}", cwd=ROOT)[0], 0)
    found = {str(path.relative_to(prefix)) for path in prefix.rglob("*") if path.is_file()}
    wanted = {"bin/vexil-compat", "include/vexil_compat.h", "lib/libvexil_compat.a", "lib/pkgconfig/vexil_compat.pc"}
    suite.equal("what is installed", found, wanted)
    tool = prefix / "bin" / "vexil-compat"
    suite.equal("the installed tool", told(tool, *SAMPLE, cwd=suite.folder), (1, SAMPLE_REPORT, ""))
    proved_with = re.search(r"^kit (.*)$", (library().parent / "made-of").read_text(), re.MULTILINE)[1]
    suite.equal("the installed tool's toolchain", told(tool, "--version"), (0, f"vexil-compat {version()}, toolchain {proved_with}\n", ""))
    suite.equal("the installed header's", f'#define VEXIL_COMPAT_KIT "{proved_with}"' in (prefix / "include/vexil_compat.h").read_text(), True)
    suite.equal("pkg-config's", f"\nkit={proved_with}\n" in (prefix / "lib/pkgconfig/vexil_compat.pc").read_text(), True)
    spaced = output("make", "-s", "install", f"PREFIX={suite.folder}/two words", cwd=ROOT)[0]
    suite.equal("a prefix with a space is refused", (spaced, [path.name for path in suite.folder.glob("two*")]), (2, []))
    suite.equal("the archive", (prefix / "lib" / "libvexil_compat.a").read_bytes(), (ROOT / "target" / "staticlib" / "libvexil_compat.a").read_bytes())
    staged = suite.folder / "staged"
    suite.equal("make install, DESTDIR", output("make", "-s", "install", f"DESTDIR={staged}", "PREFIX=/opt/vexil", cwd=ROOT)[0], 0)
    pkgconfig = staged / "opt" / "vexil" / "lib" / "pkgconfig" / "vexil_compat.pc"
    suite.equal("its prefix is the one without DESTDIR", pkgconfig.read_text().splitlines()[0], "prefix=/opt/vexil")
    suite.equal("make uninstall", output("make", "-s", "uninstall", f"DESTDIR={staged}", "PREFIX=/opt/vexil", cwd=ROOT)[0], 0)
    suite.equal("nothing is left", [path for path in staged.rglob("*") if path.is_file()], [])
    called(suite, prefix)


def called(suite: Suite, prefix):
    """A program from the installed header alone, in C and in C++, without a warning, under valgrind and the sanitizers."""
    if not shutil.which("pkg-config"):
        print("left out: the installed library by pkg-config, which is not here")
        return
    options = {"env": {**os.environ, "PKG_CONFIG_PATH": str(prefix / "lib" / "pkgconfig")}}
    flags, libs = (output("pkg-config", word, "vexil_compat", **options)[1].split() for word in ("--cflags", "--libs"))
    suite.equal("pkg-config", (flags, libs), ([f"-I{prefix}/include"], [f"-L{prefix}/lib", "-lvexil_compat"]))
    suite.equal("its version", output("pkg-config", "--modversion", "vexil_compat", **options)[1].strip(), version())
    program, valgrind = suite.folder / "caller", shutil.which("valgrind")
    if not valgrind:
        print("left out: caller.c under valgrind, which is not here")
    for name, compiler in COMPILERS.items():
        for extra in (SANITIZED, ["-O2"], []):
            words = [*compiler, *extra, *flags, TESTS / "caller.c", "-x", "none", "-o", program, *libs]
            suite.equal(f"caller.c, {name} {extra}", told(*words), (0, "", ""))
            suite.equal(f"caller.c runs, {name} {extra}", told(program), (0, "all holds\n", ""))
        if valgrind:
            suite.equal(f"caller.c under valgrind, {name}", told("valgrind", "-q", "--error-exitcode=99", program), (0, "all holds\n", ""))


def header(suite: Suite):
    """Its names are parted by prefix, its words are those of the oracle, its kit is the pinned one and the one that proved the archive."""
    text = HEADER.read_text()
    prefixes = {"selector": "SELECT", "refusal": "REFUSAL", "side": "SIDE", "bump": "BUMP", "result": "RESULT", "kind": "KIND"}
    enums = dict(re.findall(r"^enum vexil_compat_(\w+) \{(.*?)^\};", text, re.MULTILINE | re.DOTALL))
    suite.equal("the enums", set(enums), set(prefixes))
    for enum, body in enums.items():
        names = re.findall(r"^\s*VEXIL_COMPAT_(\w+?)_\w+ = (\d+)", body, re.MULTILINE)
        suite.equal(f"the prefix of {enum}", {prefix for prefix, _ in names}, {prefixes[enum]})
        # Of refusals those of requests that are still to come are left free.
        wanted = [*range(13), 16] if enum == "refusal" else list(range(len(names)))
        suite.equal(f"the numbers of {enum}", [int(number) for _, number in names], wanted)
    words = re.findall(r'"(\w+)"', re.search(r"_kind_name\(.*?\n}\n", text, re.DOTALL)[0])
    suite.equal("the words of kinds", words, [*kinds(), "unknown"])
    sizes = [int(re.search(rf"^#define VEXIL_COMPAT_{name} (\d+)$", text, re.MULTILINE)[1]) for name in ("KINDS", "VALUES")]
    suite.equal("how many kinds and values", sizes, [len(kinds()), 5 + len(kinds())])
    pinned = (ROOT / "KIT-ID").read_text().strip()
    suite.equal("the header has the pinned kit", re.search(r'VEXIL_COMPAT_KIT "(.*)"', text)[1], pinned)
    proved_with = re.search(r"^kit (.*)$", (library().parent / "made-of").read_text(), re.MULTILINE)[1]
    if proved_with != pinned:
        print(f"left out: whether the pinned kit proved the archive: it was {proved_with}")
        return
    logic = re.search(r"rattle logic=(\w+)", output("readelf", "-p", ".comment", library())[1])[1]
    suite.equal("the archive names the logic of that kit", pinned.split()[-1], logic[: len(pinned.split()[-1])])


def stack(suite: Suite):
    """All recorded pairs on a stack of 64 KiB, by every call, with the values call against the verdict call: no more than the header says."""
    program, pairs_of_record = suite.folder / "stack", suite.folder / "pairs"
    sources = [TESTS / "stack.c", HERE / "options.c", HERE / "verdicts.c"]
    suite.equal("stack.c builds", build(program, *sources, library(), "-pthread"), 0)
    images = [image for _, old, new, *_ in recorded() for image in (old, new)]
    pairs_of_record.write_bytes(framed(images))
    promised = int(re.search(r"less than (\d+) KiB of stack", HEADER.read_text())[1]) * 1024
    runs = []
    for options in (*VERDICTS, ["--list"]):
        with open(pairs_of_record, "rb") as pairs_file:
            runs.append(subprocess.Popen([program, *options], stdin=pairs_file, stdout=subprocess.PIPE, text=True))
    for run in runs:
        said = run.communicate()[0].strip()
        name = " ".join(["the library on a stack of 64 KiB", *run.args[1:]])
        print(f"{name}: {said}")
        called, differences, used = map(int, re.findall(r"\d+", said) or [0, 0, 0])
        suite.equal(f"{name} is enough", (run.returncode, called), (0, len(images) // 2))
        suite.equal(f"{name}: the calls agree", differences, 0)
        suite.equal(f"{name}: less than the header says", 0 < used < promised, True)


def costs(suite: Suite):
    """The pairs that the header names with their times stand in the table of docs/BENCHMARKS.md."""
    text, page = HEADER.read_text(), (ROOT / "docs" / "BENCHMARKS.md").read_text()
    named = re.findall(r"([\d,]+) fields of", text)
    suite.equal("the pairs that the header names", named, ["2,700", "1,259", "2,762"])
    for pair in named:
        suite.equal(f"{pair} fields have their times", bool(re.search(rf"^\| {pair} fields .*\| \d+\.\d \(", page, re.MULTILINE)), True)


def archive(suite: Suite):
    """It has the calls of the header, no heap and no statics."""
    declared = set(re.findall(r"^uint64_t (\w+)\(", HEADER.read_text(), re.MULTILINE))
    defined = {line.split()[-1] for line in output("nm", "-g", "--defined-only", library())[1].splitlines() if " T " in line}
    suite.equal("the archive has the calls of the header", defined, declared)
    undefined = {line.split()[-1] for line in output("nm", "-u", library())[1].splitlines() if " U " in line}
    suite.equal("it calls nothing but memcpy, memmove and memset", undefined - {"memcpy", "memmove", "memset"}, set())
    _, data, bss, *_ = output("size", library())[1].splitlines()[1].split()
    suite.equal("no statics", (data, bss), ("0", "0"))


if __name__ == "__main__":
    sys.exit(Suite.run(installed, header, stack, costs, archive))

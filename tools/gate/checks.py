"""What the gate asks of the crates beyond `rt ci`. Each check returns the faults that it found, as texts."""

import re
from pathlib import Path

# What a verdict may carry: the kit's logic and libraries come built, and one run may check a crate in batches. Any other `=trusted` is a
# result of the quick loop.
BUILT = {"logic-built", "libraries-built", "statements", "batches"}
# Libraries of the kit whose contracts lean on assumed ones. The verdict of a library above them does not say so.
ASSUMED = {"libc", "io", "os"}
# What assumes: an axiom, and a block of functions of C.
ASSUMES = re.compile(r'^\s*(?:pub )?(?:axiom|postulate)\b.*|^\s*(?:unsafe )?extern "C" \{', re.M)
# What the crates above `parts` may not name: the modules of `image`, and of the crates between it and `parts`, but for the values, the words
# and the types that `parts` hands on, with what the prover derives of these; and the laws that the promise of `parts` rests on. `members` reads
# parts of an accepted image, as `parts` does, and rests on both; `claims` has no code and gathers the theorems of all crates.
HANDED = r"contracts\.(?:formats|kinds|refusals|sides|tags)\b"
BEHIND = re.compile(
    rf"Rattle\.(?:(?:image|refusals|written|reader)\.(?!specs\.Schema\b|specs\.Words\b|specs\.declared\b|specs\.{HANDED})\w+|parts\.proofs\.Laws\b)(?:\.\w+)*"
)
INSIDE = {"members", "claims"}
# What their code may not call: what `image` and `reader` read by, but for reading an image; how many inner types a tag has asks for no image.
# The words and the values are definitions, which code names where it says what proves it.
CALLED = re.compile(r"\b(?:image::(?!types::inner_types\b|specs::Schema\b|specs::Words\b)|reader::(?!read_image\b|\{read_image\})|use (?:image|reader)\b(?!::))[\w:]*")
# Crates above `parts` whose definitions start from what reading an image gives; their proofs rest on the promise.
DEFINE = {"listing"}


def listed_crates(root: Path) -> dict[str, list[str]]:
    """The crates of crates.txt with what each depends on."""
    crates = {}
    for line in (root / "crates.txt").read_text().splitlines():
        line = line.split("#")[0].strip()
        if line:
            name, _, deps = line.partition(":")
            crates[name.strip()] = deps.split()
    return crates


def unlisted(root: Path) -> list[str]:
    """A folder of crates/ that crates.txt does not list, or a listed crate that has no folder."""
    names = set(listed_crates(root))
    folders = {path.name for path in (root / "crates").iterdir() if path.is_dir()}
    faults = [f"crates/{name} is not listed in crates.txt" for name in sorted(folders - names)]
    return faults + [f"crates.txt lists {name}, which has no folder" for name in sorted(names - folders)]


def verdict_faults(name: str, library: bool, log: str) -> list[str]:
    """What is wrong with the verdict that closes a crate's log."""
    verdicts = [line for line in log.splitlines() if line.startswith("logic=")]
    if len(verdicts) != 1:
        return [f"{name}: {len(verdicts)} verdict lines instead of one"]
    words = dict(word.partition("=")[::2] for word in verdicts[0].split())
    faults = []
    if words["logic"] != "proved":
        faults.append(f"{name}: logic={words['logic']}")
    if library and words.get("axioms", "0") != "0":
        faults.append(f"{name}: a library with axioms={words['axioms']}")
    if library and "foreign" in words:
        faults.append(f"{name}: a library with foreign={words['foreign']}")
    for word, value in words.items():
        if value == "trusted" and word not in BUILT:
            faults.append(f"{name}: {word}=trusted is of the quick loop and no verdict")
    return faults


def reached(name: str, crates: dict[str, list[str]]) -> set[str]:
    """All that a crate depends on, directly or by another."""
    found, left = set(), list(crates.get(name, []))
    while left:
        dep = left.pop()
        if dep not in found:
            found.add(dep)
            left += crates.get(dep, [])
    return found


def is_library(root: Path, name: str) -> bool:
    return (root / "crates" / name / "src" / "lib.rt").exists()


def assumptions(root: Path) -> list[str]:
    """Libraries that lean on assumed contracts."""
    crates = listed_crates(root)
    return [
        f"{name}: a library above {dep}, whose contracts are assumed"
        for name in crates
        if is_library(root, name)
        for dep in sorted(reached(name, crates) & ASSUMED)
    ]


def assumed(root: Path) -> list[str]:
    """Files that assume: an axiom, or a function of C. A verdict that is kept does not say so."""
    return [
        f"{path.relative_to(root)}: {found[0].strip()}"
        for name in listed_crates(root)
        for path in sorted((root / "crates" / name).rglob("*"))
        if path.suffix in (".rt", ".antt") and "out" not in path.relative_to(root).parts and (found := ASSUMES.search(path.read_text()))
    ]


def named_behind(path: Path) -> list[str]:
    """What a file names that is behind the promise of `parts`: the first definition, and the first path of its code."""
    text = path.read_text()
    found = [BEHIND.search(text), CALLED.search(text) if path.suffix == ".rt" else None]
    return [match[0] for match in found if match]


def unfolded(root: Path) -> list[str]:
    """Files of crates above `parts` that name the reader's definitions or functions instead of what `parts` promises."""
    crates = listed_crates(root)
    return [
        f"{path.relative_to(root)}: names {named}, which is behind the promise of parts"
        for name in crates
        if "parts" in reached(name, crates) and name not in INSIDE and is_library(root, name)
        for path in sorted((root / "crates" / name).rglob("*"))
        if path.suffix in (".rt", ".antt") and "out" not in path.relative_to(root).parts and not (name in DEFINE and path.parent.name == "specs")
        for named in named_behind(path)
    ]


def logs(lines: list[str]) -> dict[str, str]:
    """What `rt ci` says of each crate that it proves, from `== NAME` on."""
    found: dict[str, str] = {}
    name = ""
    for line in lines:
        if match := re.fullmatch(r"== (\w+)", line):
            name = match[1]
            found[name] = ""
        elif name:
            found[name] += line + "\n"
            if line.startswith(f"rt: {name} "):
                name = ""
    return found


def verdicts(root: Path, lines: list[str]) -> tuple[int, list[str]]:
    """How many crates have a verdict that counts, and the faults of the others, in what `rt ci` says. What it proved in an earlier run, of the
    same files over the same libraries, it keeps."""
    passed, faults = 0, []
    found = logs(lines)
    kept = {match[1] for line in lines if (match := re.match(r"rt: (\w+) is kept: ", line))}
    for name in listed_crates(root):
        log = found.get(name)
        fault = verdict_faults(name, is_library(root, name), log) if log else [] if name in kept else [f"{name}: no log of its check"]
        passed += not fault
        faults += fault
    return passed, faults

"""What the tests of the loading tool share."""

import itertools
import re
import sys
from pathlib import Path

ROOT = Path(__file__).resolve().parents[3]
sys.path.append(str(ROOT / "tools"))
import pairs  # noqa: E402
from pairs import ORACLE, SAMPLE, VERDICTS, output, told  # noqa: E402

HERE = ROOT / "tools" / "loader"
TESTS = HERE / "tests"
LOADER = ROOT / "target" / "loader" / "loader"
HEADER = ROOT / "include" / "vexil_compat.h"
WALK = [HERE / f"{name}.c" for name in ("faults", "cursor", "bodies")]
SOURCES = [HERE / f"{name}.c" for name in ("loader", "options", "verdicts", "status", "files", "refusals")] + WALK
SANITIZED = ["-g", "-fsanitize=address,undefined", "-fno-sanitize-recover=all"]
LOAD, DO_NOT_LOAD, FAILED, REFUSED = range(4)


class Suite(pairs.Suite):
    TOOL = LOADER

    def status(self, printed: str) -> int:
        if printed.startswith("refused "):
            return REFUSED
        return LOAD if printed.splitlines()[-1].startswith("Compatible;") else DO_NOT_LOAD

    def listed_status(self, printed: str) -> int:
        return REFUSED if printed.startswith("refused ") else LOAD

    def made(self, name: str, text: str) -> Path:
        """The image of a text."""
        source, image = self.folder / f"{name}.txt", self.folder / f"{name}.img"
        source.write_text(text)
        self.equal(f"the image {name}", output(ORACLE, "make", source, image)[0], 0)
        return image

    def open_enum(self, variants: int) -> list[Path]:
        """An open enum in format 2, and the same with so many variants more."""
        enum = "format 2\nnamespace\ndeclares Mode#0\n\n#0 enum Mode non_exhaustive width 8\n  @0 Stop\n"
        more = "".join(f"  @{place} {'v' * 195}{place}\n" for place in range(1, variants + 1))
        return [self.made("old-enum", enum), self.made("new-enum", enum + more)]

    def refused(self, name: str, words: list, printed: str, said: str):
        """The refusal on standard output, and one line on standard error."""
        self.equal(name, told(LOADER, *words), (REFUSED, printed, f"vexil-compat: {said}\n"))


def bad_usage() -> list[list]:
    """Words that the loading tool can't answer."""
    old, new = SAMPLE
    options = [option for verdict in VERDICTS for option in verdict]
    calls = [
        [], [old], [old, new, new], ["--counts"], ["--counts", old], ["--counts", old, new, new], ["--list"], ["--list", old, new],
        ["--list", "--list"], ["--verbose", new], [old, "--verbose"], ["--counts", old, "-"], ["--list", "--counts"], ["--counts", "--list", old],
        ["--verbose", old, new], ["--counts", "--counts", old, new], ["--help", old], ["--version", "--help"], [old, "--help"],
    ]
    for option in options:
        calls += [
            [option], [option, old], [option, old, new, new], [option, "--verbose", old, new], [option, "--list", old], ["--list", option, old],
            ["--list", option], [option, "--counts"], [old, new, option], [old, option, new], [option[:-1], old, new], [option, "--help"],
        ]
    for one, other in itertools.product(options, repeat=2):
        calls += [[one, other, old, new], [one, "--counts", other, old, new], [one, old, new, other]]
    return calls


def build(program: Path, *words) -> int:
    """The exit status of gcc."""
    strict = ["-std=c11", "-Wall", "-Wextra", "-Wpedantic", "-Wconversion", "-Werror"]
    return output("gcc", *strict, "-I", ROOT / "include", "-I", HERE, "-o", program, *words)[0]


def library() -> Path:
    """The archive that the loading tool was built with."""
    return Path((ROOT / "target" / "loader" / "library").read_text().strip()) / "libvexil_compat.a"


def kinds() -> list[str]:
    """The kinds of change in the words of reports, by the names that the header has for their numbers."""
    names = re.findall(r"VEXIL_COMPAT_KIND_(\w+) = ", HEADER.read_text())
    return ["".join(word.capitalize() for word in name.split("_")) for name in names]


def version() -> str:
    return re.search(r'VEXIL_COMPAT_VERSION "(.*)"', HEADER.read_text())[1]


def framed(images) -> bytes:
    """As stack.c and places.c read them: each image as its length, four bytes from the lowest on, and its bytes."""
    return b"".join(len(image).to_bytes(4, "little") + image for image in images)

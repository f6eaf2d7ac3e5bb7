#!/usr/bin/env python3
"""layers.py [--check]: what each crate of crates.txt rests on, by the names in its src/, specs/ and proofs/; of all that it names those which no other
one that it names rests on, the highest crates first. --check holds the picture of docs/ARCHITECTURE.md against it: each crate stands there once,
above all that it rests on."""

import re
import sys
from pathlib import Path

ROOT = Path(__file__).resolve().parents[1]
PAGE = ROOT / "docs" / "ARCHITECTURE.md"


def listed() -> dict[str, list[str]]:
    """The crates, each with those of the repository that it lists."""
    lines = [line.split("#")[0].partition(":") for line in (ROOT / "crates.txt").read_text().splitlines()]
    crates = {name.strip(): below.split() for name, colon, below in lines if colon}
    return {crate: [other for other in below if other in crates] for crate, below in crates.items()}


def named(crate: str, others: list[str]) -> set[str]:
    """Those of the others that its code, its definitions and its proofs name."""
    folder = ROOT / "crates" / crate
    paths = [path for part in ("src", "specs", "proofs") for path in (folder / part).rglob("*") if path.suffix in (".rt", ".antt")]
    text = "\n".join(path.read_text() for path in paths)
    return {other for other in others if re.search(rf"\bRattle\.{other}\b|(?<![\w:.]){other}::", text)}


def below(crate: str, direct: dict[str, set[str]]) -> set[str]:
    return direct[crate].union(*(below(other, direct) for other in direct[crate]))


def height(crate: str, direct: dict[str, set[str]]) -> int:
    return 1 + max((height(other, direct) for other in direct[crate]), default=-1)


def picture(crates) -> list[tuple[int, str]]:
    """The crates in the picture, which is what is indented below the heading, each with its line: a name before two spaces and words."""
    section = PAGE.read_text().partition("\n## Layers\n")[2].partition("\n## ")[0]
    lines = [(number, line) for number, line in enumerate(section.splitlines()) if line.startswith("    ")]
    return [(number, name) for number, line in lines for name in re.findall(r"(?<=  )(\w+)(?=  +\S)", line) if name in crates]


def faults(direct: dict[str, set[str]]) -> list[str]:
    found = picture(direct)
    names = [name for _, name in found]
    places = {name: number for number, name in found}
    wrong = [f"{crate} stands {names.count(crate)} times in the picture" for crate in direct if names.count(crate) != 1]
    return wrong or [f"{crate} stands no higher than {other}" for crate in direct for other in sorted(direct[crate]) if places[crate] >= places[other]]


def main() -> int:
    direct = {crate: named(crate, others) for crate, others in listed().items()}
    if sys.argv[1:] == ["--check"]:
        wrong = faults(direct)
        print("\n".join(wrong) or "the picture is what is there")
        return 1 if wrong else 0
    for crate in sorted(direct, key=lambda crate: (-height(crate, direct), crate)):
        nearest = [other for other in sorted(direct[crate]) if not any(other in below(nearer, direct) for nearer in direct[crate])]
        print(f"{height(crate, direct):2} {crate:13} {' '.join(nearest)}".rstrip())
    return 0


if __name__ == "__main__":
    sys.exit(main())

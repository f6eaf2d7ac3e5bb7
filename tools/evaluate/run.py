#!/usr/bin/env python3
"""run.py [--imports | --mended] [FIRST [COUNT]]: holds the definitions of crates/rules against recorded answers, by computation.

Of each recorded pair that is small enough it writes two theorems: the selectors, and the report, that the definitions give for these bytes
are the recorded ones, by `refl`. The theorems are checked in a temporary repository, 20 to a file. Not part of the gate: some hundred
pairs take a minute. The answers are those of the Rust; with --imports or --mended those of the model by that verdict, of the pairs on which it
has another, those that it does not refuse first.
"""

import shutil
import subprocess
import sys
import tempfile
from pathlib import Path

ROOT = Path(__file__).resolve().parents[2]
sys.path.append(str(ROOT / "tools"))
from layers import below, listed
from pairs import IMPORTS, MENDED, PLAIN, recorded

CRATES = sorted({"rules", *below("rules", {crate: set(others) for crate, others in listed().items()})})
IMAGES, REPORT = 1200, 4000  # the most bytes of both images, and of a report
PER_FILE = 20
# `reports` unfolds all that a report is computed by.
USES = """use Rattle.std.proofs.Common.{◌≡◌, refl, [], ◌∷◌}
use Rattle.rules.specs.Outcome.{selected}
use Rattle.rules.specs.Answer.{outcome, checked}
use Rattle.rules.specs.Imports.{imports}
use Rattle.rules.specs.Mended.{mended}
use Rattle.rules.specs.Pinned.{hex, told}
use Rattle.rules.specs.PinnedImports.{imports_told}
use Rattle.rules.specs.PinnedMended.{mended_told}
use Rattle.rules.proofs.Computed.{reports}
"""
# Of each verdict the outcome and the report in the definitions, and what is unfolded for them besides.
NAMES = {PLAIN: ("checked", "told", ""), IMPORTS: ("outcome imports", "imports_told", " imports_told"), MENDED: ("outcome mended", "mended_told", " mended_told")}


def theorem(place, pair, verdict):
    name, old, new, selectors, report = pair
    checked, told, more = NAMES[verdict]
    old, new, report = ('(hex "' + data.hex(" ") + '")' for data in (old, new, report))
    if selectors[0] != 0:
        selectors = selectors[:4]
    wanted = " ∷ ".join(map(str, selectors)) + " ∷ []"
    claims = {"selected": f"selected ({checked} {old} {new}) ≡ {wanted}", "told": f"{told} {old} {new} ≡ {report}"}
    proved = (f"{part}-{place} : {claim}\nunfolding reports{more}\n{part}-{place} = refl\n" for part, claim in claims.items())
    return f"-- {name}\n" + "\n".join(proved)


def write(folder, pairs, verdict):
    """A repository with the definitions and a crate of theorems."""
    for crate in CRATES:
        shutil.copytree(ROOT / "crates" / crate, folder / "crates" / crate, ignore=shutil.ignore_patterns("out"))
    proofs = folder / "crates" / "evaluated" / "proofs"
    proofs.mkdir(parents=True)
    (folder / "crates" / "evaluated" / "src").mkdir()
    (folder / "crates" / "evaluated" / "src" / "lib.rt").write_text("// Theorems only: see proofs/.\n#![tactic(auto)]\n")
    listed = [line for line in (ROOT / "crates.txt").read_text().splitlines() if line.partition(":")[0] in CRATES]
    (folder / "crates.txt").write_text("\n".join(listed) + f"\nevaluated: {' '.join(CRATES)}\n")
    files = range(0, len(pairs), PER_FILE)
    for number, first in enumerate(files):
        theorems = (theorem(place, pair, verdict) for place, pair in enumerate(pairs[first : first + PER_FILE]))
        (proofs / f"Pairs{number}.antt").write_text(USES + "\n" + "\n".join(theorems))
    (proofs / "Lib.antt").write_text("".join(f"pub mod Pairs{number}\n" for number in range(len(files))))


def main():
    verdict = tuple(sys.argv[1:2]) if sys.argv[1:2] in (list(IMPORTS), list(MENDED)) else PLAIN
    words = sys.argv[1 + len(verdict) :]
    first, count = (int(word) for word in (words + ["0", "300"][len(words) :])[:2])
    answers = recorded()
    if verdict != PLAIN:
        answers = (other for plain, other in zip(recorded(), recorded(verdict)) if plain != other)
        answers = sorted(answers, key=lambda pair: pair[3][0])
    small = [pair for pair in answers if len(pair[1]) + len(pair[2]) < IMAGES and len(pair[4]) < REPORT]
    pairs = small[first : first + count]
    with tempfile.TemporaryDirectory() as folder:
        write(Path(folder), pairs, verdict)
        run = subprocess.run(["rt", "check"], cwd=Path(folder) / "crates" / "evaluated", stdout=subprocess.PIPE, stderr=subprocess.STDOUT, text=True)
    errors = [line for line in run.stdout.splitlines() if ": error:" in line]
    print("\n".join(errors))
    print(f"{len(pairs)} of {len(small)} pairs, from {first} on: {'all as recorded' if run.returncode == 0 else 'NOT all as recorded'}")
    sys.exit(run.returncode)


if __name__ == "__main__":
    main()

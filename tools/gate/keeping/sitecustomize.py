"""Python reads this where the folder is on PYTHONPATH, in the place of the system's own sitecustomize. In `rt` it keeps what the prover says of
each must-fail edit, of which `rt` shows only the first line: `rt` checks a copy of the crate in a folder rt-edit-*, and the log is kept under the
sum of the copy's files and of what the crate stands on, which VEXIL_COMPAT_KEEP_EDITS tells for each crate.
"""

import hashlib
import json
import os
import subprocess
from pathlib import Path

PARTS = ("src", "specs", "proofs")


def folder() -> Path:
    """Where logs are kept, on this machine, for as long as `rt` keeps what it has tried."""
    return Path(os.environ.get("XDG_CACHE_HOME") or Path.home() / ".cache") / "vexil_compat" / "edits"


def sum_of(files: dict[str, bytes], below: str = "") -> str:
    """The sum of a crate's files, by their paths, and of what it stands on."""
    found = hashlib.sha256(below.encode())
    for path in sorted(files):
        found.update(f"{path}\0{len(files[path])}\0".encode())
        found.update(files[path])
    return found.hexdigest()


def files_of(crate: Path) -> dict[str, bytes]:
    """The files that a check of a crate reads."""
    paths = (path for part in PARTS for path in sorted((crate / part).rglob("*")) if path.is_file())
    return {str(path.relative_to(crate)): path.read_bytes() for path in paths}


def keep(room: Path, below: str, log: str):
    """Keeps a log, as a whole: another run may read it meanwhile."""
    folder().mkdir(parents=True, exist_ok=True)
    kept = folder() / sum_of(files_of(room), below)
    part = kept.with_suffix(f".{os.getpid()}")
    part.write_text(log)
    part.rename(kept)


def kept(files: dict[str, bytes], below: str) -> str | None:
    """The log of a check of these files."""
    found = folder() / sum_of(files, below)
    return found.read_text() if found.exists() else None


def hooked(run, below: dict[str, str]):
    """`subprocess.run`, but that it keeps what is said of an edit."""

    def run_and_keep(words, *more, **how):
        done = run(words, *more, **how)
        room = Path(how.get("cwd") or ".")
        if room.name.startswith("rt-edit-") and isinstance(done.stdout, str):
            keep(room, below[words[words.index("--crate-name") + 1]], done.stdout)
        return done

    return run_and_keep


if os.environ.get("VEXIL_COMPAT_KEEP_EDITS"):
    subprocess.run = hooked(subprocess.run, json.loads(os.environ["VEXIL_COMPAT_KEEP_EDITS"]))

"""What the gate asks of the must-fail edits beyond `rt ci`, which refuses a file of them as a whole.

Each comment line of an edit file starts one wrong answer, and those of one file are tried in one check of the crate. Wrong answers of code
stand in different functions: the facts of a function's proof rest on the contracts of what it calls, not on their proofs, so each is refused
by itself. In a crate without code wrong definitions may share a file, too: each must be refused by a declaration that rests on it and on no
other one of them. What the prover says of an edit is kept by keeping/sitecustomize.py."""

import importlib.util
import json
import os
import re
from collections import Counter
from pathlib import Path
from typing import NamedTuple

import checks
from declarations import Declarations, Name

KEEPING = Path(__file__).resolve().parent / "keeping"
# By its path: the system may have a sitecustomize of its own.
MODULE = importlib.util.spec_from_file_location("keeping", KEEPING / "sitecustomize.py")
keeping = importlib.util.module_from_spec(MODULE)
MODULE.loader.exec_module(keeping)

# A refusal that says nothing about a fact: the proof no longer fits the code's shape, or rests on what was refused elsewhere.
UNFIT = re.compile(r"has no `|has no field|not in scope(?! here, so what is shown)|expected `[^`]*`, found|was not admitted|which was rejected|was not checked")
FUNCTION = re.compile(r'^(\s*)(?:pub(?:\(crate\))? )?(?:extern "C" )?fn (\w+)')
IMPL = re.compile(r"^impl(?:<[^>]*>)? (?:(\w+)(?:<(\w+)>)? for )?(\w+)")
# One of an `impl`, which no function holds.
CONSTANT = re.compile(r"^    (?:pub(?:\(crate\))? )?const \w+:")
CLAUSE = re.compile(r"\b(?:requires|ensures) \{")
# Texts, arrows and operators. A proof may fail for one operation more although the answer is right, so a wrong answer has the code's.
TOKEN = re.compile(r'"(?:[^"\\]|\\.)*"|\'(?:\\.|[^\'])\'|=>|->|[-+*/%]=?|[<>=!]=|[<>]|&&|\|\|')
ERROR = re.compile(r"^(?:\./)?(\S+\.antt):(\d+):\d+: error: ")
KINDS = {"==": "equality", "!=": "equality", "<": "order", "<=": "order", ">": "order", ">=": "order", "&&": "test", "||": "test"}


class Function(NamedTuple):
    """A function, as `CRATE::MODULE::NAME`, and the folder of its proof, if it has one; else the prover finds the proof by its search."""

    path: str
    folder: str | None


class Answer(NamedTuple):
    """A wrong answer, and the functions that it changes; None for a change of anything else, also of a contract, which others rest on. With
    its lines of code that have other operations than before, and the places that it changes, by file and line. Goals are named after the code,
    so that an answer may carry their new names into a file of proofs/."""

    label: str
    functions: set[Function | None]
    reshaped: list[str]
    places: set[tuple[str, int]]


def names_at(source: str, text: str) -> list[str]:
    """The name of the function that holds the text, after what the prover calls its `impl` if it is a method; nothing outside of functions."""
    within, name = [], None
    for line in source[: source.index(text) + len(text)].splitlines():
        if line == "}":
            within, name = [], None
        elif match := IMPL.match(line):
            trait, of, own = match.groups(default="")
            within, name = [own + trait + of[:1].upper() + of[1:]], None
        elif match := FUNCTION.match(line):
            within, name = within if match[1] else [], match[2]
        elif CONSTANT.match(line):
            name = None
    return [*within, name] if name else []


def function_at(crate: Path, file: str, text: str) -> Function | None:
    """The function that holds the text. Functions that call each other have one proof, in a folder with all their names."""
    names = names_at((crate / file).read_text(), text) if file.startswith("src/") else []
    if not names or CLAUSE.search(text):
        return None
    module = Path(file).relative_to("src").with_suffix("").parts
    names = [*(module if module not in (("lib",), ("main",)) else ()), *names]
    above = (crate / "proofs").joinpath(*names[:-1])
    folders = [folder for folder in sorted(above.glob("*")) if names[-1] in folder.name.split("+")]
    return Function("::".join([crate.name, *names]), str(folders[0].relative_to(crate)) if folders else None)


def operations(text: str) -> Counter[str]:
    """How many operators of each kind stand in a text of code: an order in place of an equality gives a fact of another form."""
    tokens = [token for token in TOKEN.findall(text) if token[0] not in "\"'" and token not in ("=>", "->")]
    return Counter(KINDS.get(token, "arithmetic") for token in tokens)


def answers(crate: Path, edit: Path) -> list[Answer]:
    """The wrong answers of an edit file."""
    found: list[Answer] = []
    texts: dict[str, str] = {}
    file = old = ""
    for line in edit.read_text().splitlines():
        if line.startswith("#"):
            found.append(Answer(line.lstrip("# "), set(), [], set()))
        elif line.startswith("file: "):
            file = line.removeprefix("file: ")
            texts.setdefault(file, (crate / file).read_text())
        elif line.startswith("old: "):
            found = found or [Answer("", set(), [], set())]
            old = line.removeprefix("old: ")
            found[-1].places.add((file, texts[file].partition(old)[0].count("\n") + 1))
            if not file.startswith("proofs/"):
                found[-1].functions.add(function_at(crate, file, old))
        elif line.startswith("new:") and found:
            new = line.removeprefix("new:").removeprefix(" ")
            texts[file] = texts[file].replace(old, new)
            if file.startswith("src/") and operations(new) != operations(old):
                found[-1].reshaped.append(line)
    return found


def errors_of(log: str) -> list[str]:
    """The errors of a log, each with the lines that it goes on over."""
    found: list[str] = []
    for line in log.splitlines():
        if ": error: " in line:
            found.append(line)
        elif found and found[-1] and line.startswith("  "):
            found[-1] += line
        else:
            found.append("")
    return [error for error in found if error]


def refusals(function: Function | None, log: str) -> list[str]:
    """What the log says against a function; against anything, for None. Where the search finds a function's proof, that it does not."""
    searched = [line for line in log.splitlines() if re.match(r"fn \S+: no proof: .*`search` did not prove", line)]
    if not function:
        return errors_of(log) + searched
    own = f"/{function.folder}/"
    answered = [error for error in errors_of(log) if function.folder and own in error.partition(": error: ")[0]]
    return answered + [line for line in searched if line.startswith(f"fn {function.path}: ")]


def has_code(crate: Path) -> bool:
    return any(FUNCTION.match(line) for file in (crate / "src").rglob("*.rt") for line in file.read_text().splitlines())


def told_apart(crate: Path, edit: Path, found: list[Answer], log: str) -> list[list[str]]:
    """Of each of several wrong definitions the errors that only it can have caused: in declarations that rest on what it changes, and on nothing
    that another one changes. A change of a `use` line is one of all that its file declares."""
    declarations = Declarations(edited(crate, edit))

    def changed(answer: Answer) -> set[Name]:
        lines = {place: declarations.at.get(place) for place in answer.places}
        wide = {file for (file, _), name in lines.items() if not name}
        return {name for name in lines.values() if name} | {name for name in declarations.words if name.file in wide}

    changes = [changed(answer) for answer in found]
    errors: list[list[str]] = [[] for _ in found]
    for error in errors_of(log):
        match = ERROR.match(error)
        name = declarations.at.get((match[1], int(match[2]))) if match else None
        causes = [number for number, names in enumerate(changes) if name and names & declarations.below(name)]
        if len(causes) == 1:
            errors[causes[0]].append(error)
    # A fact that fails is told also after a declaration that rests on what was refused.
    return [sorted(own, key=lambda error: bool(UNFIT.search(error))) for own in errors]


def faults_of(answer: Answer, errors: list[str]) -> list[str]:
    """Whether a wrong answer was refused because a fact fails, as the first of the errors that are its own says."""
    if answer.reshaped:
        return [f"{answer.label}: it has other operations than the code: {answer.reshaped[0]}"]
    if not errors:
        return [f"{answer.label}: no error in its log"]
    if UNFIT.search(errors[0]):
        return [f"{answer.label}: refused for its shape and not for a fact: {errors[0][:200]}"]
    return []


def shared(found: list[Answer]) -> list[str]:
    """The proofs that more than one of the wrong answers would break: no error there tells which is refused."""
    proofs = [function.folder or function.path for answer in found for function in answer.functions if function]
    return [f"{proof} has two wrong answers in one file" for proof in sorted(set(proofs)) if proofs.count(proof) > 1]


def edited(crate: Path, edit: Path) -> dict[str, bytes]:
    """The files of a crate with an edit."""
    files, path, old = keeping.files_of(crate), "", b""
    for line in edit.read_bytes().splitlines():
        word, _, text = line.partition(b": ")
        if word == b"file":
            path = text.decode()
        elif word == b"old":
            old = text
        elif line.startswith(b"new:"):
            files[path] = files[path].replace(old, line.removeprefix(b"new:").removeprefix(b" "))
    return files


def below(root: Path) -> dict[str, str]:
    """Of each crate a sum of what a check of it stands on: the toolchain, and the crates below it."""
    crates = checks.listed_crates(root)
    kit = root / "KIT-ID"
    sums = {name: keeping.sum_of(keeping.files_of(root / "crates" / name)) for name in crates}
    own = {name: sorted(checks.reached(name, crates) & set(crates)) for name in crates}
    return {name: " ".join([kit.read_text().strip() if kit.exists() else "", *(sums[dep] for dep in own[name])]) for name in crates}


def log_of(edit: Path, stands_on: dict[str, str]) -> str | None:
    """What the prover said of an edit, if that is kept."""
    crate = edit.parent.parent
    return keeping.kept(edited(crate, edit), stands_on[crate.name])


def edit_faults(crate: Path, edit: Path, log: str | None) -> tuple[int, list[str]]:
    """How many wrong answers of a file were refused for a fact, and the faults of the others."""
    if log is None:
        return 0, ["it was not tried"]
    found = answers(crate, edit)
    if not found or not found[0].label:
        return 0, ["it has a wrong answer without a comment line"]
    wide = [None in answer.functions for answer in found]
    together = len(found) > 1 and any(wide)
    if together and not has_code(crate):
        errors = told_apart(crate, edit, found, log)
    else:
        errors = [[line for function in answer.functions for line in refusals(function, log)] for answer in found]
    faults = [faults_of(*both) for both in zip(found, errors)]
    if together and has_code(crate):
        faults = [[f"{answer.label}: it changes more than functions, so it needs a file of its own"] if one else fault for answer, one, fault in zip(found, wide, faults)]
    return sum(not fault for fault in faults), shared(found) + [text for fault in faults for text in fault]


def in_order(root: Path) -> list[Path]:
    return sorted((root / "crates").glob("*/must-fail/*.edit"))


def untried(root: Path) -> list[str]:
    """The crates with an edit of which nothing is kept: `rt` has tried it before, elsewhere."""
    stands_on = below(root)
    return sorted({edit.parent.parent.name for edit in in_order(root) if log_of(edit, stands_on) is None})


def environment(root: Path) -> dict[str, str]:
    """In which what is said of edits is kept."""
    paths = [str(KEEPING), *filter(None, [os.environ.get("PYTHONPATH")])]
    return {**os.environ, "PYTHONPATH": os.pathsep.join(paths), "VEXIL_COMPAT_KEEP_EDITS": json.dumps(below(root))}


def bad(lines: list[str]) -> list[str]:
    """What `rt` says of edits that it could not try, which fail nothing there: of each, and how many in its line `rt: ok`."""
    said = re.compile(r"rt: (must-fail )?\S+: (BAD EDIT|NOT TRIED)|rt: ok\b.*, \d+ bad\b")
    return [line.removeprefix("rt: ")[:200] for line in lines if said.match(line)]


def edits(root: Path) -> tuple[int, list[str]]:
    """How many wrong answers were refused for a fact, and the faults of the others."""
    passed, faults = 0, []
    stands_on = below(root)
    for edit in in_order(root):
        crate = edit.parent.parent
        refused, found = edit_faults(crate, edit, log_of(edit, stands_on))
        passed += refused
        faults += [f"must-fail {crate.name}/{edit.stem}: {text}" for text in found]
    return passed, faults

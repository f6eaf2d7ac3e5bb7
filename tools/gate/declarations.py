"""The declarations of a crate's .antt files, and which of them one rests on, for attributing a refusal to one of several wrong definitions.

What a declaration rests on is read from names alone: every word of its text that is in scope there, by the file's own declarations or by its
`use` lines, as a name, a constructor or a part of an operator. That may be more than it rests on, and never less: what is not named there, such
as the record that a field belongs to, is named in the type of something that is."""

import re
from collections import defaultdict
from typing import NamedTuple

MODIFIERS = r"(?:(?:pub|abbrev|unfoldable|opaque|private|instance)\s+)*"
# A clause of a definition has no such head: it may begin with an argument, as that of an operator does.
HEAD = re.compile(rf"^{MODIFIERS}(?:(data|record)\s+([^\s:(){{}},]+)|([^\s:(){{}},]+)\s*(?:\{{[^}}]*\}}\s*)*:(?:\s|$))")
USE = re.compile(r"^(?:(?:pub|unfoldable)\s+)*use\s+(.*)")
MODULE = re.compile(rf"^{MODIFIERS}module\b")
NESTED = re.compile(r"^\s+(?:pub\s+)?\|?\s*([^\s:(){},]+)")
WORD = re.compile(r"[^\s(){}⟨⟩\[\],;λ\"]+")


class Name(NamedTuple):
    file: str
    name: str


class Declaration(NamedTuple):
    name: str
    lines: list[int]
    words: set[str]
    constructors: set[str]


def words_of(lines: list[tuple[int, str]]) -> set[str]:
    """The words of lines, each also in its parts: what stands before and after points, and the parts of an operator."""
    words = {word for _, line in lines for word in WORD.findall(line.partition("-- ")[0])}
    return words | {part for word in words for part in re.split(r"[.◌]", word) if part}


def declared(lines: list[tuple[int, str]]) -> list[Declaration]:
    """The declarations among lines without a `use`; those of a `module` with its head."""
    found: list[Declaration] = []
    at = 0
    while at < len(lines):
        line = lines[at][1]
        end = at + 1
        while end < len(lines) and lines[end][1][:1] in (" ", "\t", "}"):
            end += 1
        whole, at = lines[at:end], end
        if MODULE.match(line):
            found += inside(whole)
            continue
        match = HEAD.match(line)
        numbers, words = [number for number, _ in whole], words_of(whole)
        if match:
            constructors = {nested[1] for _, text in whole[1:] if (nested := NESTED.match(text))} if match[1] == "data" else set()
            found.append(Declaration(match[2] or match[3], numbers, words, constructors))
        elif found:
            found[-1].lines.extend(numbers)
            found[-1].words.update(words)
    return found


def inside(whole: list[tuple[int, str]]) -> list[Declaration]:
    """What a `module` declares: each rests on its head, too."""
    head = next((place for place, (_, text) in enumerate(whole) if re.search(r"\bwhere$", text.rstrip())), 0)
    body = whole[head + 1 :]
    indent = min((len(text) - len(text.lstrip()) for _, text in body), default=0)
    shared = words_of(whole[: head + 1])
    return [inner._replace(words=inner.words | shared) for inner in declared([(number, text[indent:]) for number, text in body])]


def split(text: str) -> tuple[list[str], list[tuple[int, str]]]:
    """The `use` items of a file, and its other lines with their numbers, without comments."""
    uses: list[str] = []
    others: list[tuple[int, str]] = []
    is_use = False
    for number, line in enumerate(text.splitlines(), 1):
        if line.lstrip().startswith("--") or not line.strip():
            continue
        if line[0] in " \t}" and is_use:
            uses[-1] += " " + line.strip()
            continue
        match = USE.match(line)
        is_use = match is not None
        if match:
            uses.append(match[1])
        elif not re.match(r"^(?:pub(?:\([^)]*\))?\s+)?mod\s", line):
            others.append((number, line))
    return uses, others


def module_of(path: str) -> tuple[str, ...]:
    """By what parts a file is named in a `use`, less the crate: `specs` or `proofs`, and its place there."""
    return tuple(path.removesuffix(".antt").split("/"))


class Declarations:
    """Of the files of a crate, by their paths."""

    def __init__(self, files: dict[str, bytes]):
        texts = {path: content.decode() for path, content in files.items() if path.endswith(".antt")}
        self.paths = {module_of(path): path for path in texts}
        self.words: dict[Name, set[str]] = defaultdict(set)
        self.at: dict[tuple[str, int], Name] = {}
        self.own: dict[str, dict[str, set[Name]]] = defaultdict(lambda: defaultdict(set))
        self.uses: dict[str, list[str]] = {}
        for path, text in texts.items():
            self.uses[path], lines = split(text)
            for one in declared(lines):
                name = Name(path, one.name)
                self.words[name] |= one.words
                self.at |= {(path, number): name for number in one.lines}
                for word in {one.name, *filter(None, one.name.split("◌")), *one.constructors}:
                    self.own[path][word].add(name)
        self.scopes: dict[str, dict[str, set[Name]]] = {}
        self.rests: dict[Name, frozenset[Name]] = {}

    def named(self, path: str, word: str, seen: frozenset[str] = frozenset()) -> set[Name]:
        """What a name is that a file exports: its own, or what it passes on."""
        found = set(self.own[path].get(word, ()))
        if path not in seen:
            for names in self.imported(path):
                for other, given, last in names:
                    if given == word:
                        found |= self.named(other, last, seen | {path})
        return found

    def imported(self, path: str) -> list[list[tuple[str, str, str]]]:
        """Of each `use` of a file of the crate: the file, the name here and the name there."""
        found = []
        for use in self.uses[path]:
            above, braces, names = use.partition("{")
            steps = [step for step in above.strip().rstrip(".").split(".") if step]
            for first in range(len(steps)):
                other = self.paths.get(tuple(steps[first:]))
                if other and braces:
                    pairs = [item.split(" as ") for item in names.rstrip("} ").split(",") if item.strip()]
                    found.append([(other, pair[-1].strip(), pair[0].strip()) for pair in pairs])
        return found

    def scope(self, path: str) -> dict[str, set[Name]]:
        """What each word may stand for in a file: also a name of any module that the file names without a list of names."""
        if path not in self.scopes:
            scope: dict[str, set[Name]] = defaultdict(set)
            for word, names in self.own[path].items():
                scope[word] |= names
            for names in self.imported(path):
                for other, given, last in names:
                    for word in {given, *filter(None, given.split("◌"))}:
                        scope[word] |= self.named(other, last)
            for use in self.uses[path]:
                if "{" not in use:
                    steps = re.split(r"[.\s]", use.partition(" as ")[0].strip())
                    for first in range(len(steps)):
                        other = self.paths.get(tuple(steps[first:]))
                        for word, names in (self.own[other].items() if other else ()):
                            scope[word] |= names
            self.scopes[path] = scope
        return self.scopes[path]

    def below(self, name: Name) -> frozenset[Name]:
        """A declaration and all that it rests on."""
        if name not in self.rests:
            seen, todo = {name}, [name]
            while todo:
                one = todo.pop()
                scope = self.scope(one.file)
                for word in self.words[one]:
                    new = scope.get(word, set()) - seen
                    seen |= new
                    todo += new
            self.rests[name] = frozenset(seen)
        return self.rests[name]

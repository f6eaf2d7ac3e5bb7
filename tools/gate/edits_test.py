"""What the gate asks of must-fail edits is tried on files and logs that it must refuse."""

import os
import subprocess
import sys
import tempfile
import unittest
from pathlib import Path
from unittest import mock

import edits
from edits import keeping

SOURCE = """// Two functions, a method and a constant.
const SIDE: u8 = 1;

fn first(a: u8) -> u8
    ensures { r }
{
    a
}

impl Pair {
    pub const FIRST: Pair = Pair {
        before: 1,
    };

    pub fn second(self) -> u8 {
        self.b
    }

    const LAST: Pair = Pair {
        after: 2,
    };
}

pub(crate) fn third(c: u8) -> u8 {
    c + SIDE
}

fn searched(d: u8) -> u8 {
    d
}
"""
FIRST = "# one\nfile: src/pairs.rt\nold:     a\nnew:     0\n"
SECOND = "# two\nfile: src/pairs.rt\nold: self.b\nnew: self.a\n"
FACT = "`returns`: `omega`: the goal does not follow"


class Edits(unittest.TestCase):
    def setUp(self):
        folder = tempfile.TemporaryDirectory()
        self.addCleanup(folder.cleanup)
        self.root = Path(folder.name)
        self.crate = self.root / "crates" / "maps"
        self.source = self.crate / "src" / "pairs.rt"
        for path in ("src", "must-fail", "proofs/pairs/first", "proofs/pairs/Pair/second", "proofs/pairs/+third"):
            (self.crate / path).mkdir(parents=True)
        self.source.write_text(SOURCE)

        (self.root / "crates.txt").write_text("below:\nmaps: below\n")
        cache = mock.patch.dict(os.environ, {"XDG_CACHE_HOME": str(self.root / "cache")})
        cache.start()
        self.addCleanup(cache.stop)

    def said(self, edit: str, log: str) -> tuple[int, list[str]]:
        """What is found of the edit, of which this is said."""
        file = self.crate / "must-fail" / "1.edit"
        file.write_text(edit)
        keeping.folder().mkdir(parents=True, exist_ok=True)
        (keeping.folder() / keeping.sum_of(edits.edited(self.crate, file), edits.below(self.root)["maps"])).write_text(log)
        return edits.edits(self.root)

    def found(self, edit: str, *errors: tuple[str, str]) -> tuple[int, list[str]]:
        """What is found of the edit, with errors at files of the crate."""
        return self.said(edit, "".join(f"./{file}:1:2: error: {text}\n" for file, text in errors) + "logic=not-proved\n")

    def test_the_function_of_a_text_is_found(self):
        for text, path, folder in (
            ("    a\n", "maps::pairs::first", "proofs/pairs/first"),
            ("self.b", "maps::pairs::Pair::second", "proofs/pairs/Pair/second"),
            ("c + SIDE", "maps::pairs::third", "proofs/pairs/+third"),
            ("    d\n", "maps::pairs::searched", None),
        ):
            self.assertEqual(edits.function_at(self.crate, "src/pairs.rt", text), (path, folder))
        for constant in ("u8 = 1", "before: 1", "after: 2"):
            self.assertIsNone(edits.function_at(self.crate, "src/pairs.rt", constant))
        self.assertIsNone(edits.function_at(self.crate, "src/pairs.rt", "ensures { r }"))
        self.assertIsNone(edits.function_at(self.crate, "specs/Pairs.antt", "a"))

    def test_the_root_is_no_module(self):
        (self.crate / "src" / "lib.rt").write_text(SOURCE)
        self.assertEqual(edits.function_at(self.crate, "src/lib.rt", "self.b"), ("maps::Pair::second", None))

    def test_what_the_prover_says_of_its_own_hint_is_no_fault(self):
        hint = FACT + "\n  `k` is not in scope here, so what is shown does not paste back as it stands"
        self.assertEqual(self.found(FIRST, ("proofs/pairs/first/Answers.antt", hint)), (1, []))

    def test_help_that_goes_on_over_lines_is_no_error(self):
        constant = "# side\nfile: src/pairs.rt\nold: const SIDE: u8 = 1;\nnew: const SIDE: u8 = 2;\n"
        self.assertEqual(self.said(constant, "help: write the answer\n    pub returns : goal.returns\nlogic=not-proved\n"), (0, ["must-fail maps/1: side: no error in its log"]))

    def test_wrong_answers_that_each_break_a_fact_pass(self):
        errors = [("proofs/pairs/first/Answers.antt", FACT), ("proofs/pairs/Pair/second/Answers.antt", FACT)]
        self.assertEqual(self.found(FIRST + SECOND, *errors), (2, []))

    def test_a_wrong_answer_that_only_another_refuses_fails(self):
        self.assertEqual(self.found(FIRST + SECOND, ("proofs/pairs/first/Answers.antt", FACT)), (1, ["must-fail maps/1: two: no error in its log"]))

    def test_a_wrong_answer_refused_for_a_callee_fails(self):
        errors = [("proofs/pairs/first/Answers.antt", FACT), ("proofs/pairs/Pair/second/Answers.antt", "`second-spec`: `close` was not admitted")]
        passed, faults = self.found(FIRST + SECOND, *errors)
        self.assertEqual((passed, len(faults)), (1, 1))

    def test_a_wrong_answer_that_breaks_the_shape_fails(self):
        for text in (
            "`returns-2`: `goal.returns-2`: module `Rattle.maps.proofs.compared.Goals` has no `returns-2` that can be named from here",
            "`loop-i-preserved`: record `Rattle.maps.proofs.compared.Lts.Else-a` has no field `loop-i`",
            "`loop-i-preserved`: record `Rattle.maps.proofs.compared.Lts.Else-a`\n  has no field `loop-i`",
        ):
            passed, faults = self.found(FIRST, ("proofs/pairs/first/Answers.antt", text))
            self.assertEqual((passed, len(faults)), (0, 1))
        self.assertEqual(self.found(FIRST), (0, ["must-fail maps/1: one: no error in its log"]))

    def test_a_fact_that_the_search_does_not_prove_is_refused(self):
        edit = "# found\nfile: src/pairs.rt\nold:     d\nnew:     0\n"
        self.assertEqual(self.found(edit, ("proofs/pairs/first/Answers.antt", FACT))[0], 0)
        for name, wrong in (("searched", edit), ("first", FIRST)):
            log = f"fn maps::pairs::{name}: no proof: expected answers in ./proofs/pairs/{name}/Answers.antt; `search` did not prove `returns`\n"
            self.assertEqual(self.said(wrong, log), (1, []))

    def test_a_wrong_answer_with_one_operation_more_fails(self):
        for text in ("a + 0", "a % 2", "a == a", "a < 1"):
            passed, faults = self.found(FIRST.replace("new:     0", f"new:     {text}"), ("proofs/pairs/first/Answers.antt", FACT))
            self.assertEqual((passed, len(faults)), (0, 1))
        third = "# three\nfile: src/pairs.rt\nold: c + SIDE\nnew: c - SIDE\n"
        self.assertEqual(self.found(third, ("proofs/pairs/+third/Answers.antt", FACT)), (1, []))

    def test_a_wrong_answer_may_carry_new_names_of_goals(self):
        names = "file: proofs/pairs/first/Answers.antt\nold: a\nnew: b\n"
        (self.crate / "proofs/pairs/first/Answers.antt").write_text("a\n")
        self.assertEqual(self.found(FIRST + names, ("proofs/pairs/first/Answers.antt", FACT)), (1, []))
        errors = [(f"proofs/pairs/{path}/Answers.antt", FACT) for path in ("first", "Pair/second")]
        self.assertEqual(self.found(FIRST + names + SECOND, *errors), (2, []))

    def test_operations_are_counted_outside_of_texts(self):
        for text, found in (
            ('b"a + b" => b\'-\',', {}),
            ("if a <= b && c != 1 {", {"order": 1, "test": 1, "equality": 1}),
            ("x -> y; z += 1", {"arithmetic": 1}),
        ):
            self.assertEqual(edits.operations(text), found)
        self.assertNotEqual(edits.operations("a != b"), edits.operations("a < b"))

    def test_two_wrong_answers_in_one_function_fail(self):
        passed, faults = self.found(FIRST + FIRST.replace("one", "same"), ("proofs/pairs/first/Answers.antt", FACT))
        self.assertEqual(faults, ["must-fail maps/1: proofs/pairs/first has two wrong answers in one file"])

    def test_a_change_outside_of_functions_is_tried_alone(self):
        constant = "# side\nfile: src/pairs.rt\nold: const SIDE: u8 = 1;\nnew: const SIDE: u8 = 2;\n"
        self.assertEqual(self.found(constant, ("proofs/Laws.antt", FACT)), (1, []))
        passed, faults = self.found(FIRST + constant, ("proofs/pairs/first/Answers.antt", FACT))
        self.assertEqual((passed, len(faults)), (1, 1))

    def laws(self):
        """A crate without code: two definitions, a law of each and one of both."""
        self.source.write_text("// No code.\n")
        for path, text in (
            ("specs/Words.antt", "use Other.{ℕ}\n\npub one : ℕ\none = 1\n\n-- of one\npub two : ℕ\ntwo = 2\n"),
            ("proofs/First.antt", "use Rattle.maps.specs.Words.{one as first}\n\npub of_one : first ≡ 1\nof_one = refl\n"),
            ("proofs/Both.antt", "use Rattle.maps.specs.Words.{two}\nuse Rattle.maps.proofs.First.{of_one}\n\npub of_two : two ≡ 2\nof_two = refl\n\npub of_both : two ≡ 2\nof_both = of_one\n"),
        ):
            (self.crate / path).parent.mkdir(parents=True, exist_ok=True)
            (self.crate / path).write_text(text)

    def at(self, *errors: tuple[str, int, str]) -> str:
        return "".join(f"./{file}:{line}:2: error: {text}\n" for file, line, text in errors) + "logic=not-proved\n"

    def test_wrong_definitions_are_told_apart_by_what_rests_on_one_alone(self):
        self.laws()
        both = "# one\nfile: specs/Words.antt\nold: one = 1\nnew: one = 0\n# two\nfile: specs/Words.antt\nold: two = 2\nnew: two = 0\n"
        first, second, of_both = ("proofs/First.antt", 4, FACT), ("proofs/Both.antt", 5, FACT), ("proofs/Both.antt", 8, FACT)
        self.assertEqual(self.said(both, self.at(first, second, of_both)), (2, []))
        self.assertEqual(self.said(both, self.at(first, of_both)), (1, ["must-fail maps/1: two: no error in its log"]))
        self.assertEqual(self.said(both, self.at(of_both, second)), (1, ["must-fail maps/1: one: no error in its log"]))
        unfit = ("proofs/First.antt", 3, "`of_one` was not admitted")
        self.assertEqual(self.said(both, self.at(unfit, second))[0], 1)
        self.assertEqual(self.said(both, self.at(unfit, first, second)), (2, []))

    def test_another_import_is_a_change_of_the_whole_file(self):
        self.laws()
        both = "# import\nfile: proofs/First.antt\nold: {one as first}\nnew: {two as first}\n# two\nfile: specs/Words.antt\nold: two = 2\nnew: two = 0\n"
        first, second = ("proofs/First.antt", 4, FACT), ("proofs/Both.antt", 5, FACT)
        self.assertEqual(self.said(both, self.at(first, second)), (1, ["must-fail maps/1: import: no error in its log"]))

    def test_an_edit_that_cannot_be_tried_fails(self):
        said = "must-fail maps/1.edit: BAD EDIT: an 'old:' text is in src/lib.rt 0 times, and not once"
        self.assertEqual(edits.bad([f"rt: {said}", "rt: must-fail maps/2.edit: refused, as it must be", "rt: maps proved"]), [said])

    def test_a_run_that_counts_bad_edits_fails(self):
        counted = "ok; handles allowed: none; must-fail edits: 11 refused, 2 bad; every proof and must-fail edit was done in this run"
        self.assertEqual(edits.bad([f"rt: {counted}"]), [counted])
        self.assertEqual(edits.bad([f"rt: {counted.replace(', 2 bad', '')}"]), [])

    def test_an_edit_that_names_no_wrong_answer_fails(self):
        for text in ("", FIRST.partition("\n")[2], FIRST.partition("\n")[2] + SECOND):
            self.assertEqual(self.found(text, ("proofs/pairs/first/Answers.antt", FACT)), (0, ["must-fail maps/1: it has a wrong answer without a comment line"]))

    def test_an_edit_that_was_not_tried_fails(self):
        (self.crate / "must-fail" / "x.edit").write_text(FIRST)
        self.assertEqual(edits.edits(self.root), (0, ["must-fail maps/x: it was not tried"]))
        self.assertEqual(edits.untried(self.root), ["maps"])
        self.found(FIRST)
        self.assertEqual(edits.untried(self.root), [])
        (self.root / "crates" / "below" / "src").mkdir(parents=True)
        (self.root / "crates" / "below" / "src" / "lib.rt").write_text("another\n")
        self.assertEqual(edits.untried(self.root), ["maps"])

    def test_what_is_said_in_a_folder_of_rt_is_kept(self):
        (self.crate / "must-fail" / "1.edit").write_text(FIRST)
        room = self.root / "rt-edit-1-x"
        for path, text in edits.edited(self.crate, self.crate / "must-fail" / "1.edit").items():
            (room / path).parent.mkdir(parents=True, exist_ok=True)
            (room / path).write_bytes(text)
        call = "import subprocess, sys; subprocess.run(['echo', 'said', '--crate-name', 'maps'], cwd=sys.argv[1], stdout=subprocess.PIPE, text=True)"
        for where in (self.root, room):
            self.assertEqual(edits.untried(self.root), ["maps"])
            subprocess.run([sys.executable, "-c", call, where], check=True, env=edits.environment(self.root))
        self.assertEqual(edits.log_of(self.crate / "must-fail" / "1.edit", edits.below(self.root)), "said --crate-name maps\n")


if __name__ == "__main__":
    unittest.main()

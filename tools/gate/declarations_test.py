"""What a declaration rests on is read from small files of each form."""

import unittest

from declarations import Declarations, Name

SPEC = """-- Words.
pub data Kind : Type 0 where
  message : Kind
  enum : Kind

pub record Body : Type 0 where
  pub kind : Kind

◌#◌ : ℕ → ℕ → ℕ
a # b = a

module _ {A : Type 0} (f : A → ℕ) where
  -- inside
  pub inner : A → ℕ
  inner a = f a # base

  pub alone : ℕ
  alone = 1

base : ℕ
base = 2
"""
PASSED_ON = "pub use Rattle.maps.specs.Words.{inner as within, Kind, message}\n"
PROOF = """use Rattle.maps.specs.Passed.{within,
  Kind, message}
use Rattle.maps.specs.Words

of_within : within 1 ≡ 1
of_within =
  refl -- not of alone

of_kind : Kind
of_kind = message

of_alone : Words.alone ≡ 1
of_alone = refl

of_nothing : (inner_word : ℕ) → ℕ
of_nothing x = x
"""
FILES = {"specs/Words.antt": SPEC, "specs/Passed.antt": PASSED_ON, "proofs/Laws.antt": PROOF, "src/lib.rt": "of_within\n"}


class Reading(unittest.TestCase):
    def setUp(self):
        self.found = Declarations({path: text.encode() for path, text in FILES.items()})

    def below(self, name: str) -> set[str]:
        return {other.name for other in self.found.below(Name("proofs/Laws.antt", name))} - {name}

    def test_lines_belong_to_their_declaration(self):
        for line, name in ((2, "Kind"), (4, "Kind"), (7, "Body"), (9, "◌#◌"), (10, "◌#◌"), (14, "inner"), (15, "inner"), (18, "alone"), (21, "base")):
            self.assertEqual(self.found.at[("specs/Words.antt", line)].name, name)
        self.assertNotIn(("specs/Words.antt", 13), self.found.at)
        self.assertNotIn(("proofs/Laws.antt", 1), self.found.at)

    def test_a_name_that_is_passed_on_under_another_is_found(self):
        self.assertEqual(self.below("of_within"), {"inner", "◌#◌", "base"})

    def test_constructors_are_those_of_their_type(self):
        self.assertEqual(self.below("of_kind"), {"Kind"})

    def test_a_module_that_is_named_whole_gives_all_its_names(self):
        self.assertIn("alone", self.below("of_alone"))

    def test_what_is_in_no_scope_is_nothing(self):
        self.assertEqual(self.below("of_nothing"), set())


if __name__ == "__main__":
    unittest.main()

"""The gate's checks are tried on what they must refuse."""

import tempfile
import unittest
from pathlib import Path

import checks

PROVED = "fn maps::compared: proved\nlogic=proved functions=1 sum=0 native=nat logic-built=trusted libraries-built=trusted\n"


class Verdicts(unittest.TestCase):
    def test_a_library_without_axioms_passes(self):
        self.assertEqual(checks.verdict_faults("maps", True, PROVED), [])
        self.assertEqual(checks.verdict_faults("maps", True, PROVED.replace("sum=0", "axioms=0 sum=0")), [])

    def test_a_library_with_an_axiom_fails(self):
        self.assertEqual(
            checks.verdict_faults("maps", True, PROVED.replace("sum=0", "axioms=1 sum=0")),
            ["maps: a library with axioms=1"],
        )

    def test_a_library_with_a_foreign_function_fails(self):
        self.assertEqual(
            checks.verdict_faults("maps", True, PROVED.replace("sum=0", "foreign=maps::getpid sum=0")),
            ["maps: a library with foreign=maps::getpid"],
        )

    def test_a_program_may_have_axioms(self):
        self.assertEqual(checks.verdict_faults("replay", False, PROVED.replace("sum=0", "axioms=3 sum=0")), [])

    def test_a_result_of_the_quick_loop_fails(self):
        for word in ("incremental", "cache"):
            self.assertEqual(
                checks.verdict_faults("maps", True, PROVED.replace("sum=0", f"{word}=trusted sum=0")),
                [f"maps: {word}=trusted is of the quick loop and no verdict"],
            )

    def test_an_unproved_crate_fails(self):
        self.assertEqual(checks.verdict_faults("maps", True, PROVED.replace("logic=proved", "logic=failed")), ["maps: logic=failed"])
        self.assertEqual(checks.verdict_faults("maps", True, "nothing\n"), ["maps: 0 verdict lines instead of one"])
        self.assertEqual(checks.verdict_faults("maps", True, PROVED + PROVED), ["maps: 2 verdict lines instead of one"])


class Folders(unittest.TestCase):
    def setUp(self):
        self.folder = tempfile.TemporaryDirectory()
        self.addCleanup(self.folder.cleanup)
        self.root = Path(self.folder.name)
        (self.root / "crates" / "maps" / "src").mkdir(parents=True)
        (self.root / "crates" / "maps" / "src" / "lib.rt").touch()
        (self.root / "crates.txt").write_text("# a comment\nmaps: bytes check # another\n")

    def test_crates_txt_is_read(self):
        self.assertEqual(checks.listed_crates(self.root), {"maps": ["bytes", "check"]})
        self.assertEqual(checks.unlisted(self.root), [])

    def test_an_unlisted_folder_fails(self):
        (self.root / "crates" / "extra").mkdir()
        self.assertEqual(checks.unlisted(self.root), ["crates/extra is not listed in crates.txt"])

    def test_a_listed_crate_without_a_folder_fails(self):
        (self.root / "crates.txt").write_text("maps:\nimage: maps\n")
        self.assertEqual(checks.unlisted(self.root), ["crates.txt lists image, which has no folder"])

    def test_a_library_above_assumed_contracts_fails(self):
        self.assertEqual(checks.assumptions(self.root), [])
        (self.root / "crates.txt").write_text("maps: image\nimage: io\n")
        self.assertEqual(checks.assumptions(self.root), ["maps: a library above io, whose contracts are assumed"])

    def test_a_file_that_assumes_fails(self):
        (self.root / "crates.txt").write_text("maps:\n")
        file = self.root / "crates" / "maps" / "src" / "lib.rt"
        file.write_text('#[unsafe(no_mangle)]\npub extern "C" fn f() {\n}\n// an axiom\n')
        self.assertEqual(checks.assumed(self.root), [])
        file.write_text('unsafe extern "C" {\n    safe fn never();\n}\n')
        self.assertEqual(checks.assumed(self.root), ['crates/maps/src/lib.rt: unsafe extern "C" {'])
        file.write_text("")
        (self.root / "crates" / "maps" / "Laws.antt").write_text("pub axiom lem : A\n")
        self.assertEqual(checks.assumed(self.root), ["crates/maps/Laws.antt: pub axiom lem : A"])

    def test_a_file_that_names_the_readers_definitions_fails(self):
        (self.root / "crates.txt").write_text("reader: image\nparts: image reader\nmaps: parts\n")
        file = self.root / "crates" / "maps" / "src" / "lib.rt"
        for module in ("image.specs.Schema", "image.specs.declared.Read", "image.specs.contracts.tags.Tag", "reader.specs.declared.T", "parts.proofs.Promise"):
            file.write_text(f"ghost use Rattle.{module}.{{Ty}};\n")
            self.assertEqual(checks.unfolded(self.root), [])
        for module in ("image.specs.Types", "image.specs.contracts.types", "reader.specs.Answer", "refusals.proofs.Refusals", "written.specs.Limits", "parts.proofs.Laws.Fields"):
            file.write_text(f"ghost use Rattle.{module}.{{type_of}};\n")
            self.assertEqual(
                checks.unfolded(self.root),
                [f"crates/maps/src/lib.rt: names Rattle.{module}, which is behind the promise of parts"],
            )
        (self.root / "crates" / "maps").rename(self.root / "crates" / "members")
        (self.root / "crates.txt").write_text("reader: image\nparts: image reader\nmembers: parts\n")
        self.assertEqual(checks.unfolded(self.root), [])

    def test_code_that_calls_the_reader_fails(self):
        (self.root / "crates.txt").write_text("reader: image\nparts: image reader\nmaps: parts\n")
        file = self.root / "crates" / "maps" / "src" / "lib.rt"
        for path in ("reader::read_image", "reader::{read_image}", "image::types::inner_types", "image::specs::Words::bytes", "parts::handles::Image"):
            file.write_text(f"use {path};\n")
            self.assertEqual(checks.unfolded(self.root), [])
        for path in ("reader::contents::entry_length", "reader::bodies::read_body", "image::numbers::u64_at", "image::specs::Types::type_of", "image::types::read_type_at"):
            for line in (f"use {path};\n", f"    {path}(image, at)\n"):
                file.write_text(line)
                self.assertEqual(
                    checks.unfolded(self.root),
                    [f"crates/maps/src/lib.rt: names {path}, which is behind the promise of parts"],
                )
        for line in ("use reader as r;\n", "use reader::{read_image, contents};\n", "use reader::{contents, read_image};\n"):
            file.write_text(line)
            self.assertEqual(len(checks.unfolded(self.root)), 1)
        (self.root / "crates.txt").write_text("maps: image reader\n")
        self.assertEqual(checks.unfolded(self.root), [])

    def test_the_listings_definition_may_name_what_reading_gives(self):
        (self.root / "crates.txt").write_text("parts: image\nlisting: parts\n")
        crate = self.root / "crates" / "listing"
        for folder in ("src", "specs", "proofs"):
            (crate / folder).mkdir(parents=True)
        (crate / "src" / "lib.rt").write_text("")
        (crate / "specs" / "Listing.antt").write_text("use Rattle.image.specs.Image.{read_image}\n")
        self.assertEqual(checks.unfolded(self.root), [])
        (crate / "proofs" / "Laws.antt").write_text("use Rattle.image.specs.Image.{read_image}\n")
        self.assertEqual(len(checks.unfolded(self.root)), 1)

    def test_a_crate_without_a_log_fails(self):
        self.assertEqual(checks.verdicts(self.root, []), (0, ["maps: no log of its check"]))

    def test_a_log_is_read(self):
        lines = ["== image", "logic=failed", "rt: image NOT PROVED", "== maps", *PROVED.splitlines(), "rt: maps proved", "logic=failed"]
        self.assertEqual(checks.verdicts(self.root, lines), (1, []))
        self.assertEqual(checks.verdicts(self.root, lines[:1] + lines[3:4] + lines[1:3]), (0, ["maps: logic=failed"]))

    def test_what_an_earlier_run_proved_is_kept(self):
        self.assertEqual(checks.verdicts(self.root, ["rt: maps is kept: an earlier run on this machine proved the same files"]), (1, []))


if __name__ == "__main__":
    unittest.main()

"""What the gate says of itself and of the toolchain."""

import contextlib
import io
import os
import subprocess
import tempfile
import unittest
from pathlib import Path
from unittest import mock

import run


class Words(unittest.TestCase):
    def test_help_says_how_long_it_takes(self):
        done = subprocess.run([run.ROOT / "test", "--help"], capture_output=True, text=True)
        self.assertEqual((done.returncode, done.stderr), (0, ""))
        self.assertRegex(done.stdout, r"about \d+ minutes")

    def test_other_words_are_bad_usage(self):
        done = subprocess.run([run.ROOT / "test", "maps"], capture_output=True, text=True)
        self.assertEqual((done.returncode, done.stdout), (2, ""))


class Toolchain(unittest.TestCase):
    def asked(self, version: str | None) -> tuple[bool, run.Gate, str | None]:
        """Whether there is a toolchain where `rt version` prints this, or where there is none, and the kit that is allowed then."""
        with tempfile.TemporaryDirectory() as folder:
            if version is not None:
                rt = Path(folder) / "rt"
                rt.write_text(f"#!/bin/sh\necho '{version}'\n")
                rt.chmod(0o755)
            gate = run.Gate()
            with mock.patch.dict(os.environ, {"PATH": folder}), contextlib.redirect_stdout(io.StringIO()):
                os.environ.pop("VEXIL_COMPAT_ANY_KIT", None)
                return run.toolchain(gate), gate, os.environ.get("VEXIL_COMPAT_ANY_KIT")

    def test_the_pinned_one_passes(self):
        is_there, gate, allowed = self.asked(run.PINNED)
        self.assertEqual((is_there, gate.faults, gate.left_out, allowed), (True, [], [], None))

    def test_another_one_is_named_and_taken(self):
        is_there, gate, allowed = self.asked("rattle-kit-9")
        self.assertEqual((is_there, gate.faults, allowed), (True, [], "1"))
        self.assertIn(run.PINNED, gate.left_out[0])
        self.assertIn("rattle-kit-9", gate.left_out[0])

    def test_none_is_a_fault(self):
        is_there, gate, _ = self.asked(None)
        self.assertEqual((is_there, gate.left_out), (False, []))
        self.assertIn(run.PINNED, gate.faults[0])


class Commands(unittest.TestCase):
    def test_a_command_has_its_environment(self):
        gate = run.Gate()
        with contextlib.redirect_stdout(io.StringIO()):
            for work in (gate.command, gate.suite):
                lines = work("said", "sh", "-c", 'echo "$WORD passed, 0 failed"', environment={**os.environ, "WORD": "3"})
                self.assertEqual(lines, ["3 passed, 0 failed"])
        self.assertEqual((gate.passed, gate.faults), (4, []))


if __name__ == "__main__":
    unittest.main()

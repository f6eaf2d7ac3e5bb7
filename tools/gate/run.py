#!/usr/bin/env python3
"""All tests of the repository: proofs, must-fail edits, programs and tools. They take 35 to 60 minutes on four cores, by the
machine, and longer on two; what is proved is kept on that machine, so that a later run takes about 15 minutes. The last line is `N passed, M failed`, the sum of what ran; what could
not run is named and not counted."""

import os
import re
import shutil
import subprocess
import sys
import time
from pathlib import Path

import checks
import edits

ROOT = Path(__file__).resolve().parents[2]
ORACLE = ROOT / "target" / "oracle" / "oracle"
ANSWERS = ROOT / "crates" / "replay" / "data" / "answers.bin"
PINNED = (ROOT / "KIT-ID").read_text().strip()
HAMMER_SEED, HAMMER_PAIRS, HAMMER_SECONDS = 20_261_115, 10_000, 300
JUDGE_SEED, JUDGE_PAIRS = 20_261_120, 20_000
SUMMARY = re.compile(r"^(\d+) passed, (\d+) failed$")


class Gate:
    def __init__(self):
        self.start = time.monotonic()
        self.passed = 0
        self.faults = []
        self.left_out = []

    def count(self, passed: int, faults: list[str]):
        self.passed += passed
        self.faults += faults

    def stage(self, name: str, work):
        """Runs one stage; a stage that breaks is a fault and not the end."""
        print(f"== {name}", flush=True)
        start = time.monotonic()
        try:
            work()
        except Exception as error:
            self.faults.append(f"{name}: {error}")
        print(f"== {name}: {time.monotonic() - start:.0f} s", flush=True)

    def command(self, name: str, *words, environment: dict[str, str] | None = None) -> list[str]:
        """Counts a command as one check: it passes with exit status 0."""
        status, lines = run(*words, environment=environment)
        self.count(status == 0, [] if status == 0 else [f"{name}: exit status {status}"])
        return lines

    def suite(self, name: str, *words, environment: dict[str, str] | None = None) -> list[str]:
        """Counts a command by its last line, `N passed, M failed`."""
        status, lines = run(*words, environment=environment)
        summary = SUMMARY.match(lines[-1]) if lines else None
        if not summary:
            self.faults.append(f"{name}: its last line is no summary")
            return lines
        passed, failed = int(summary[1]), int(summary[2])
        self.count(passed, [f"{name}: failed"] * failed)
        if (status != 0) != (failed > 0) or passed == 0:
            self.faults.append(f"{name}: exit status {status} with '{lines[-1]}'")
        self.left_out += [f"{name}: {line.removeprefix('left out: ')}" for line in lines if line.startswith(("left out: ", "the time is over"))]
        return lines

    def finish(self) -> int:
        for reason in self.left_out:
            print(f"left out: {reason}")
        for fault in self.faults:
            print(f"FAILED: {fault}")
        minutes, seconds = divmod(round(time.monotonic() - self.start), 60)
        print(f"== all: {minutes} min {seconds} s")
        print(f"{self.passed} passed, {len(self.faults)} failed", flush=True)
        return 1 if self.faults or self.passed == 0 else 0


def run(*words, environment: dict[str, str] | None = None) -> tuple[int, list[str]]:
    """The exit status and the lines of a command, which are printed too."""
    process = subprocess.Popen(
        [str(word) for word in words], cwd=ROOT, env=environment, stdout=subprocess.PIPE, stderr=subprocess.STDOUT, text=True
    )
    lines = []
    for line in process.stdout:
        print(line, end="", flush=True)
        lines.append(line.rstrip("\n"))
    return process.wait(), lines


def toolchain(gate: Gate) -> bool:
    """Whether there is a toolchain. Another than the pinned one is named: the crates are proved with what is here."""
    if not shutil.which("rt"):
        gate.faults.append(f"there is no rt here, the toolchain that proves the crates: {PINNED} (KIT-ID)")
        return False
    _, lines = run("rt", "version")
    if lines != [PINNED]:
        gate.left_out.append(f"the pinned toolchain: KIT-ID names '{PINNED}', and here is '{' '.join(lines)}', which proved the crates")
        os.environ["VEXIL_COMPAT_ANY_KIT"] = "1"
    return True


def crates(gate: Gate):
    for faults in (checks.unlisted(ROOT), checks.assumptions(ROOT), checks.assumed(ROOT), checks.unfolded(ROOT)):
        gate.count(not faults, faults)
    proved = gate.suite("rt ci", "rt", "ci", environment=edits.environment(ROOT))
    gate.count(*checks.verdicts(ROOT, proved))
    gate.faults += edits.bad(proved)
    # What `rt ci` takes from an earlier run it does not try again.
    untried = edits.untried(ROOT)
    if untried:
        gate.command("rt must-fail", "rt", "must-fail", "--anew", *untried, environment=edits.environment(ROOT))
    gate.count(*edits.edits(ROOT))


def gate_tests(gate: Gate):
    for tests in ("checks_test.py", "declarations_test.py", "edits_test.py", "run_test.py"):
        gate.command(f"tools/gate/{tests}", sys.executable, f"tools/gate/{tests}", "-q", "-b")
    gate.command("tools/layers.py --check", sys.executable, "tools/layers.py", "--check")


def oracle(gate: Gate):
    if not shutil.which("rustc"):
        gate.left_out.append("tools/oracle and the recorded answers: there is no rustc")
        return
    sources = Path(os.environ.get("VEXIL_SRC", ROOT.parent / "shared" / "docs" / "src"))
    words = []
    if not (sources / "crates" / "vexil-lang" / "src" / "compat.rs").exists():
        gate.left_out.append(f"the comparison with the Rust `check`: its sources are not in {sources}")
        words = ["--without-vexil"]
    gate.command("tools/oracle/build.sh", "bash", "tools/oracle/build.sh", *words)
    gate.suite("oracle selftest", ORACLE, "selftest")
    gate.command("oracle verify", ORACLE, "verify", ANSWERS)
    again = ROOT / "target" / "oracle" / "answers.bin"
    made = gate.command("oracle generate", ORACLE, "generate", again)
    pairs, replayed = made[-1].split()[0], (ROOT / "crates" / "replay" / "stdout").read_text().split()[1]
    gate.count(pairs == replayed, [] if pairs == replayed else [f"{pairs} pairs are generated and {replayed} replayed"])
    gate.command("the recorded answers are what the generator writes", "cmp", again, ANSWERS)


def is_left_out(gate: Gate, what: str, *tools: str) -> bool:
    """Whether a stage can't run for want of these tools; it is named then."""
    reasons = [f"there is no {tool}" for tool in tools if not shutil.which(tool)]
    gate.left_out += [f"{what}: {reason}" for reason in reasons]
    return bool(reasons)


def loader(gate: Gate):
    if not is_left_out(gate, "tools/loader", "gcc", "rustc"):
        gate.command("tools/loader/build.sh", "bash", "tools/loader/build.sh")
        for tests in ("answers.py", "builds.py"):
            gate.suite(f"tools/loader/tests/{tests}", sys.executable, f"tools/loader/tests/{tests}")
        if not is_left_out(gate, "tools/loader/tests/header.py", "g++", "make"):
            gate.suite("tools/loader/tests/header.py", sys.executable, "tools/loader/tests/header.py")


def program(gate: Gate):
    """On the program that tools/program/build.sh proves and links."""
    if not is_left_out(gate, "tools/program", "rustc"):
        gate.command("tools/program/build.sh", "bash", "tools/program/build.sh")
        gate.suite("tools/program/test.py", sys.executable, "tools/program/test.py")


def hammer(gate: Gate):
    if not is_left_out(gate, "tools/hammer", "rustc"):
        gate.suite("tools/hammer/run.sh", "bash", "tools/hammer/run.sh", HAMMER_SEED, HAMMER_PAIRS, HAMMER_SECONDS)


def judge(gate: Gate):
    """The second judge: its own test, and pairs by the library, the oracle and it."""
    if not is_left_out(gate, "tools/judge", "rustc", "g++"):
        gate.suite("tools/judge/run.sh", "bash", "tools/judge/run.sh", JUDGE_SEED, JUDGE_PAIRS)


def main() -> int:
    gate = Gate()
    if sys.argv[1:] == ["--help"]:
        print(f"usage: ./test\n{__doc__}")
        return 0
    if len(sys.argv) > 1:
        print(f"usage: ./test, without arguments\n{__doc__}", file=sys.stderr)
        return 2
    print(__doc__, flush=True)
    if not toolchain(gate):
        return gate.finish()
    # Only the library that was proved here counts.
    os.environ.pop("VEXIL_COMPAT_LIB", None)
    gate.stage("crates", lambda: crates(gate))
    gate.stage("gate", lambda: gate_tests(gate))
    gate.stage("oracle", lambda: oracle(gate))
    gate.stage("loader", lambda: loader(gate))
    gate.stage("program", lambda: program(gate))
    gate.stage("hammer", lambda: hammer(gate))
    gate.stage("judge", lambda: judge(gate))
    return gate.finish()


if __name__ == "__main__":
    sys.exit(main())

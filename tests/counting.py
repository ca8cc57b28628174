#!/usr/bin/env python3
"""tests/counting.sh counts right, and believes no part that says nothing or something else than its exit status; and the
gate, over parts that are made up, ends with the sums that it should.

Prints what is wrong and ends with 'N passed, M failed'.
"""

import os
import shutil
import subprocess
import sys
import tempfile
from pathlib import Path
from typing import Dict, Iterator, NamedTuple, Optional

from last_line import ended

ROOT = Path(__file__).resolve().parent.parent


class Case(NamedTuple):
    """Lines of a script, the log of a part that they find, and what they must print and end with."""

    lines: str
    log: Optional[str]
    printed: str
    status: int


def of_part(log: Optional[str], status: str, told: str, total: str) -> Case:
    """A part that left this log and ended with this status; one check of the script's own passed before."""
    ended = 0 if total.endswith(" 0 failed") else 1
    return Case(f"count own 0; end_line log; add_part it '{status}' log; print_sum", log, f"{told}{total}\n", ended)


def by_kinds(log: str, told: str, sums: str) -> Case:
    """A part that tells kinds apart left this log and ended well; one proof passed before."""
    ended = 0 if sums.endswith(" 0 failed\n") else 1
    lines = "kind=proofs; count own 0; kind=tests; add_part_by_kinds it 0 log; print_kinds"
    return Case(lines, log, f"{told}{sums}", ended)


NO_COUNT = "it: FAILED, it ended with status 0 and no count\n"
NO_SUMS = "it: FAILED, it ended with status 0, and its sums do not make up its last line\n"
SCRIPTS: Dict[str, Case] = {
    "all pass": Case("count a 0; count b 0; print_sum", None, "2 passed, 0 failed\n", 0),
    "one fails": Case("count a 0; count b 3; print_sum", None, "b: FAILED\n1 passed, 1 failed\n", 1),
    "a fault": Case("count a 0; fault 'no b'; print_sum", None, "no b\n1 passed, 1 failed\n", 1),
    "nothing counted": Case("print_sum", None, "nothing was counted: FAILED\n0 passed, 1 failed\n", 1),
    "counted anew": Case("count a 1; forget_counts; count b 0; print_sum", None, "a: FAILED\n1 passed, 0 failed\n", 0),
    "two kinds": Case(
        "tell_apart 'a b' c; kind=c; add 2 0; kind='a b'; add 3 1; print_kinds",
        None,
        "a b: 3 passed, 1 failed\nc: 2 passed, 0 failed\n5 passed, 1 failed\n",
        1,
    ),
    "a kind without a count": Case(
        "tell_apart a b; kind=b; count x 0; print_kinds",
        None,
        "a: FAILED, nothing was counted\na: 0 passed, 1 failed\nb: 1 passed, 0 failed\n1 passed, 1 failed\n",
        1,
    ),
    "a part": of_part("words\n10 passed, 0 failed\n", "0", "", "11 passed, 0 failed"),
    "a part that failed": of_part("10 passed, 2 failed\n", "1", "", "11 passed, 2 failed"),
    "a part that ended within its count": of_part("10 passed, 0 failed", "0", "\n", "11 passed, 0 failed"),
    "a part that ended within a line": of_part("1 passed, 0 failed\nbut th", "0", f"\n{NO_COUNT}", "1 passed, 1 failed"),
    "an empty log": of_part("", "0", NO_COUNT, "1 passed, 1 failed"),
    "no log": of_part(None, "0", NO_COUNT, "1 passed, 1 failed"),
    "a count that is not the last line": of_part("9 passed, 0 failed\nbye\n", "0", NO_COUNT, "1 passed, 1 failed"),
    "words after a count": of_part("9 passed, 0 failed; bye\n", "0", NO_COUNT, "1 passed, 1 failed"),
    "words before a count": of_part("it: 9 passed, 0 failed\n", "0", NO_COUNT, "1 passed, 1 failed"),
    "a number with a zero in front": of_part("010 passed, 0 failed\n", "0", NO_COUNT, "1 passed, 1 failed"),
    "a part that checked nothing": of_part(
        "0 passed, 0 failed\n", "0", "it: FAILED, it ended with status 0 and nothing was checked\n", "1 passed, 1 failed"
    ),
    "a status that its count lacks": of_part(
        "9 passed, 0 failed\n", "3", "it: FAILED, it ended with status 3 though nothing failed\n", "10 passed, 1 failed"
    ),
    "a part that was stopped": of_part(
        "9 passed, 0 failed\n", "none", "it: FAILED, it ended with status none though nothing failed\n", "10 passed, 1 failed"
    ),
    "a status that hides its count": of_part(
        "9 passed, 1 failed\n", "0", "it: FAILED, it ended with status 0 though something failed\n", "10 passed, 2 failed"
    ),
    "sums by kind": by_kinds(
        "1 passed, 0 failed\na b: 2 passed, 0 failed\nc: 3 passed, 0 failed\n5 passed, 0 failed\n",
        "",
        "proofs: 1 passed, 0 failed\na b: 2 passed, 0 failed\nc: 3 passed, 0 failed\n6 passed, 0 failed\n",
    ),
    "sums that are not the last line's": by_kinds(
        "a: 2 passed, 0 failed\n5 passed, 0 failed\n",
        NO_SUMS,
        "proofs: 1 passed, 0 failed\na: 2 passed, 0 failed\ntests: 0 passed, 1 failed\n3 passed, 1 failed\n",
    ),
    "no sums": by_kinds(
        "a: 5 passed, 0 failed; and more\n5 passed, 0 failed\n",
        NO_SUMS,
        "proofs: 1 passed, 0 failed\ntests: 0 passed, 1 failed\n1 passed, 1 failed\n",
    ),
    "sums of nothing": by_kinds(
        "0 passed, 0 failed\n",
        "it: FAILED, it ended with status 0 and nothing was checked\n",
        "proofs: 1 passed, 0 failed\ntests: 0 passed, 1 failed\n1 passed, 1 failed\n",
    ),
    "sums and no last line": by_kinds(
        "a: 5 passed, 0 failed\n",
        NO_SUMS,
        "proofs: 1 passed, 0 failed\ntests: 0 passed, 1 failed\n1 passed, 1 failed\n",
    ),
}

TESTS = "== a\n4 passed, 0 failed\ncomparisons: 3 passed, 0 failed\nchecks: 1 passed, 0 failed\n4 passed, 0 failed\n"


OK = "rt: ok; handles allowed: none; must-fail edits: 9 refused, 1 of them only by a limit{}; every proof was done in this run\n"
COUNTED = "7 passed, 0 failed\n"
PROVED = OK.format("") + COUNTED


class Gate(NamedTuple):
    """What the gate's parts write, how the proofs end, and its last lines."""

    proofs: str
    status: int
    tests: str
    end: str


def kinds(proofs: str, total: str) -> str:
    """The gate's last lines where the tests all pass."""
    return f"\nproofs and edits: {proofs}\ncomparisons: 3 passed, 0 failed\nchecks: 1 passed, 0 failed\n{total}\n"


GATES: Dict[str, Gate] = {
    "all pass": Gate(f"proved\n{PROVED}", 0, TESTS, kinds("8 passed, 0 failed", "12 passed, 0 failed")),
    "a bad edit": Gate(OK.format(", 1 bad") + COUNTED, 0, TESTS, kinds("7 passed, 1 failed", "11 passed, 1 failed")),
    "many bad edits": Gate(OK.format(", 12 bad") + COUNTED, 0, TESTS, kinds("7 passed, 1 failed", "11 passed, 1 failed")),
    "proofs without edits": Gate(
        f"rt: ok; handles allowed: none; all done\n{COUNTED}", 0, TESTS, kinds("8 passed, 0 failed", "12 passed, 0 failed")
    ),
    "proofs that do not say how they went": Gate(COUNTED, 0, TESTS, kinds("7 passed, 1 failed", "11 passed, 1 failed")),
    "proofs that fail": Gate(
        "rt: FAILED: a\n5 passed, 2 failed\n", 1, TESTS, kinds("5 passed, 2 failed", "9 passed, 2 failed")
    ),
    "proofs that fail without a count": Gate(PROVED, 1, TESTS, kinds("7 passed, 1 failed", "11 passed, 1 failed")),
    "proofs of some crates": Gate(
        f"{OK.format('')}7 passed, 0 failed (a and the crates below alone: not the gate)\n",
        0,
        TESTS,
        kinds("1 passed, 1 failed", "5 passed, 1 failed"),
    ),
    "proofs that end within a line": Gate(
        f"{OK.format('')}7 passed, 0 fai", 0, TESTS, kinds("1 passed, 1 failed", "5 passed, 1 failed")
    ),
    "tests without sums": Gate(
        PROVED,
        0,
        "== a\n4 passed, 0 failed\n",
        "\nproofs and edits: 8 passed, 0 failed\ntests: 0 passed, 1 failed\n8 passed, 1 failed\n",
    ),
}
# What tests/run is handed, by whether the crates had something built before.
HANDED = {False: "--after-ci", True: ""}


def ran(folder: Path, *words: str) -> "subprocess.CompletedProcess[str]":
    """Runs a command to its end, with the folder's own commands before all others."""
    path = f"{folder}{os.pathsep}{os.environ['PATH']}"
    return subprocess.run(
        words, cwd=folder, env={**os.environ, "PATH": path}, capture_output=True, text=True, check=False
    )


def wrong_script(folder: Path, name: str, case: Case) -> Optional[str]:
    """What is wrong with a case of the counting."""
    if case.log is not None:
        (folder / "log").write_text(case.log, encoding="utf-8")
    done = ran(folder, "bash", "-u", "-c", f". {ROOT}/tests/counting.sh; {case.lines}")
    if (done.returncode, done.stdout) == (case.status, case.printed):
        return None
    return f"{name}: status {done.returncode}, {done.stdout}{done.stderr}and not {case.status}, {case.printed}"


def write_command(path: Path, text: str, status: int) -> None:
    """A command that notes the words that it is handed, prints the text and ends with the status."""
    path.parent.mkdir(exist_ok=True)
    path.with_name(f"{path.name}.out").write_text(text, encoding="utf-8")
    path.write_text(f'#!/bin/sh\necho "$*" >"{path}.handed"\ncat "{path}.out"\nexit {status}\n', encoding="utf-8")
    path.chmod(0o755)


def make_gate(folder: Path, gate: Gate) -> None:
    """The gate over parts that are made up. Its rt is another for each word after it, and proofs leave something built."""
    for place in (".ci/run", "tests/counting.sh", "KIT"):
        (folder / place).parent.mkdir(exist_ok=True)
        shutil.copy(ROOT / place, folder / place)
    write_command(folder / "tests" / "run", gate.tests, 0)
    write_command(folder / "rt-ci", gate.proofs, gate.status)
    write_command(folder / "rt-version", (ROOT / "KIT").read_text(encoding="utf-8"), 0)
    (folder / "crates" / "a").mkdir(parents=True)
    (folder / "rt").write_text(
        f'#!/bin/sh\nverb=$1\nshift\n[ "$verb" != ci ] || mkdir -p "{folder}/crates/a/out"\nexec "{folder}/rt-$verb" "$@"\n',
        encoding="utf-8",
    )
    (folder / "rt").chmod(0o755)


def wrong_gate(folder: Path, name: str, gate: Gate) -> Optional[str]:
    """What is wrong with the gate over such parts."""
    make_gate(folder, gate)
    done = ran(folder, ".ci/run")
    status = 0 if gate.end.endswith(" 0 failed\n") else 1
    if done.returncode == status and done.stdout.endswith(gate.end):
        return None
    return f"the gate, {name}: status {done.returncode}, {done.stdout}{done.stderr}and not {status}, {gate.end}"


def wrong_handing(folder: Path, was_built: bool) -> Optional[str]:
    """What is wrong with what the gate hands to rt ci, which is nothing, and to the tests."""
    make_gate(folder, GATES["all pass"])
    if was_built:
        (folder / "crates" / "a" / "out").mkdir()
    ran(folder, ".ci/run")
    handed = [(folder / f"{part}.handed").read_text(encoding="utf-8").strip() for part in ("rt-ci", "tests/run")]
    return None if handed == ["", HANDED[was_built]] else f"the gate handed on {handed} where built before is {was_built}"


def outcomes() -> Iterator[Optional[str]]:
    """What is wrong with each case, in a folder of its own."""
    for name, case in SCRIPTS.items():
        with tempfile.TemporaryDirectory() as folder:
            yield wrong_script(Path(folder), name, case)
    for name, gate in GATES.items():
        with tempfile.TemporaryDirectory() as folder:
            yield wrong_gate(Path(folder), name, gate)
    for was_built in HANDED:
        with tempfile.TemporaryDirectory() as folder:
            yield wrong_handing(Path(folder), was_built)


def main() -> int:
    found = list(outcomes())
    wrong = [outcome for outcome in found if outcome is not None]
    return ended(len(found), wrong)


if __name__ == "__main__":
    sys.exit(main())

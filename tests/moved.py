#!/usr/bin/env python3
"""tools/moved counts a small history right, figure by figure, and refuses wrong arguments.

The history is made in a temporary folder and is two commits, in which each kind has files that stayed, moved, changed,
came and went. Prints what is wrong and ends with 'N passed, M failed'.
"""

import os
import subprocess
import sys
import tempfile
from pathlib import Path
from typing import Dict, Iterator, List, NamedTuple, Optional, Sequence

from last_line import ended

SCRIPT = Path(__file__).resolve().parent.parent / "tools" / "moved"


def lines(name: str, first: int, last: int) -> bytes:
    """Numbered lines that no other name has."""
    return b"".join(f"{name}, line {number} of it\n".encode() for number in range(first, last + 1))


LAW = lines("law", 1, 20)
PROOF = lines("proof", 1, 20)
ORDER = lines("order", 1, 10)
OLD: Dict[str, bytes] = {
    "crates/a/src/lib.rt": lines("lib", 1, 10),
    "crates/a/src/rows.rt": lines("rows", 1, 12),
    "crates/aa/src/deep/x.rt": lines("x", 1, 3),
    "crates/a/specs/Lib.antt": lines("specs", 1, 5),
    "crates/a/specs/deep/D.antt": lines("D", 1, 8),
    "crates/a/proofs/Answers.antt": lines("proofs", 1, 6),
    "crates/a/proofs/Law.antt": LAW,
    "crates/a/proofs/deep/Law.antt": lines("deep law", 1, 11),
    "crates/a/proofs/f/Invariants.antt": PROOF,
    "crates/a/proofs/f/Proof/Part.antt": lines("part", 1, 2),
    "crates/a/must-fail/wrong.edit": lines("wrong", 1, 4),
    "crates/a/must-fail/kept.edit": lines("kept", 1, 3),
    "crates/a/stdin": b"\0\1\2\n\n",
    "crates/a/stdout": b"\0\n",
    "crates.txt": b"a:\n",
    "tests/run": lines("run", 1, 9),
    "tests/helper": lines("helper", 1, 1500),
    "python/p.py": lines("p", 1, 2),
    "examples/e.c": lines("e", 1, 3),
    "README.md": lines("readme", 1, 5),
    "docs/A.md": lines("page", 1, 7),
    "bench/README.md": lines("bench", 1, 4),
    "bench/order": ORDER,
    "include/empty.h": b"",
    "include/README.md": lines("include", 1, 1),
}
NEW: Dict[str, bytes] = {
    "crates/a/src/lib.rt": lines("lib", 1, 4) + lines("new", 1, 3) + lines("lib", 6, 10),  # 3 added, 1 removed
    "crates/b/src/rows.rt": OLD["crates/a/src/rows.rt"],
    "crates/aa/src/deep/x.rt": OLD["crates/aa/src/deep/x.rt"],
    "crates/a/specs/Lib.antt": OLD["crates/a/specs/Lib.antt"],
    "crates/b/specs/Lib.antt": lines("b", 1, 4),  # added
    "crates/a/proofs/Answers.antt": OLD["crates/a/proofs/Answers.antt"],
    "crates/b/specs/Law.antt": LAW.replace(b"line 7 ", b"line 7, another ") + lines("more", 1, 2),  # 3 added, 1 removed
    "crates/a/proofs/deep/Law.antt": OLD["crates/a/proofs/deep/Law.antt"],
    "crates/b/proofs/m/f/Answers.antt": lines("proof", 1, 17) + lines("end", 1, 1),  # 1 added, 3 removed
    "crates/a/proofs/f/Proof/Part.antt": OLD["crates/a/proofs/f/Proof/Part.antt"],
    "crates/b/must-fail/other.edit": lines("other", 1, 7),  # added
    "crates/a/must-fail/kept.edit": OLD["crates/a/must-fail/kept.edit"],
    "crates/a/stdin": b"\0\1\2\3\n\n\n",  # no text before or after
    "crates/a/stdout": b"0\n1\n",  # text now: 2 added
    "crates.txt": b"a:\nb: a\n",  # 1 added
    "tests/run": OLD["tests/run"],  # executable now
    "tools/helper": OLD["tests/helper"],
    "python/p.py": OLD["python/p.py"],
    "examples/e.c": lines("e", 1, 2) + b"no end of the line",  # 1 added, 1 removed
    "README.md": lines("readme", 2, 5),  # 1 removed
    "docs/sub/A.md": OLD["docs/A.md"],
    "bench/README.md": OLD["bench/README.md"],
    "bench/turned": b"".join(reversed(ORDER.splitlines(keepends=True))),  # the same lines: 9 added, 9 removed
    "include/none.h": b"",
    "include/README.md": OLD["include/README.md"],
}

KINDS = """\
| kind | files before | files after | untouched | moved unchanged | moved and changed | changed in place | added | removed \
| lines before | lines after | lines added | lines removed | lines stayed |
|---|---|---|---|---|---|---|---|---|---|---|---|---|---|
| code | 3 | 3 | 1 | 1 | 0 | 1 | 0 | 0 | 25 | 27 | 3 | 1 | 24 |
| definitions | 2 | 3 | 1 | 0 | 0 | 0 | 1 | 1 | 13 | 31 | 7 | 8 | 5 |
| laws | 3 | 2 | 2 | 0 | 1 | 0 | 0 | 0 | 37 | 17 | 0 | 1 | 36 |
| proofs | 2 | 2 | 1 | 0 | 1 | 0 | 0 | 0 | 22 | 20 | 1 | 3 | 19 |
| edits | 2 | 2 | 1 | 0 | 0 | 0 | 1 | 1 | 7 | 10 | 7 | 4 | 3 |
| tests | 4 | 3 | 2 | 1 | 0 | 1 | 0 | 0 | 1,514 | 14 | 1 | 1 | 1,513 |
| pages | 3 | 3 | 1 | 1 | 0 | 1 | 0 | 0 | 16 | 15 | 0 | 1 | 15 |
| other | 6 | 7 | 1 | 1 | 1 | 3 | 0 | 0 | 12 | 1,515 | 12 | 9 | 3 |
| all | 25 | 25 | 10 | 4 | 3 | 6 | 2 | 2 | 1,646 | 1,649 | 31 | 28 | 1,618 |
"""
BETWEEN = """\
Moved from one kind to another:

| from | to | files | lines |
|---|---|---|---|
| laws | definitions | 1 | 19 |
| tests | other | 1 | 1,500 |
"""
CRATES = """\
Lines by crate:

| crate | code before | code after | definitions before | definitions after | laws before | laws after | proofs before \
| proofs after |
|---|---|---|---|---|---|---|---|---|
| a | 22 | 12 | 13 | 5 | 37 | 17 | 22 | 2 |
| aa | 3 | 3 | 0 | 0 | 0 | 0 | 0 | 0 |
| b | 0 | 12 | 0 | 26 | 0 | 0 | 0 | 18 |
| all | 25 | 27 | 13 | 31 | 37 | 17 | 22 | 20 |
"""
SAME = """\
| kind | files before | files after | untouched | moved unchanged | moved and changed | changed in place | added | removed \
| lines before | lines after | lines added | lines removed | lines stayed |
|---|---|---|---|---|---|---|---|---|---|---|---|---|---|
| code | 3 | 3 | 3 | 0 | 0 | 0 | 0 | 0 | 25 | 25 | 0 | 0 | 25 |
| definitions | 2 | 2 | 2 | 0 | 0 | 0 | 0 | 0 | 13 | 13 | 0 | 0 | 13 |
| laws | 3 | 3 | 3 | 0 | 0 | 0 | 0 | 0 | 37 | 37 | 0 | 0 | 37 |
| proofs | 2 | 2 | 2 | 0 | 0 | 0 | 0 | 0 | 22 | 22 | 0 | 0 | 22 |
| edits | 2 | 2 | 2 | 0 | 0 | 0 | 0 | 0 | 7 | 7 | 0 | 0 | 7 |
| tests | 4 | 4 | 4 | 0 | 0 | 0 | 0 | 0 | 1,514 | 1,514 | 0 | 0 | 1,514 |
| pages | 3 | 3 | 3 | 0 | 0 | 0 | 0 | 0 | 16 | 16 | 0 | 0 | 16 |
| other | 6 | 6 | 6 | 0 | 0 | 0 | 0 | 0 | 12 | 12 | 0 | 0 | 12 |
| all | 25 | 25 | 25 | 0 | 0 | 0 | 0 | 0 | 1,646 | 1,646 | 0 | 0 | 1,646 |
"""
# Settings of a user's that would give other figures, were they heeded.
SETTINGS = """\
[core]
    abbrev = 4
    attributesFile = {attributes}
[color]
    ui = always
[diff]
    algorithm = patience
    external = false
    relative = true
    renames = false
    renameLimit = 1
"""


class Place(NamedTuple):
    """A temporary folder with a history in it, a folder beside that has none, and a home without settings."""

    history: Path
    elsewhere: Path
    home: Path

    def environment(self) -> Dict[str, str]:
        """Nothing of git's but a name to commit under, whatever this machine has set."""
        kept = {name: value for name, value in os.environ.items() if not name.startswith(("GIT_", "XDG_"))}
        person = {f"GIT_{role}_{what}": "nobody" for role in ("AUTHOR", "COMMITTER") for what in ("NAME", "EMAIL")}
        alone = {"GIT_CONFIG_NOSYSTEM": "1", "GIT_CEILING_DIRECTORIES": str(self.history.parent)}
        return {**kept, **person, **alone, "HOME": str(self.home)}

    def run(self, folder: Path, *words: str) -> "subprocess.CompletedProcess[str]":
        """Runs a command to its end."""
        return subprocess.run(words, cwd=folder, env=self.environment(), capture_output=True, text=True, check=False)

    def git(self, *words: str) -> str:
        """What git prints; it must not fail."""
        done = self.run(self.history, "git", *words)
        if done.returncode != 0:
            raise RuntimeError(f"git {' '.join(words)}: {done.stderr}")
        return done.stdout.strip()

    def commit(self, files: Dict[str, bytes], executable: Sequence[str]) -> str:
        """Commits these files and no others."""
        self.git("rm", "-r", "-q", "--cached", "--ignore-unmatch", ".")
        for name, content in files.items():
            path = self.history / name
            path.parent.mkdir(parents=True, exist_ok=True)
            path.write_bytes(content)
        self.git("add", "--", *files)
        for name in executable:
            self.git("update-index", "--chmod=+x", name)
        self.git("commit", "-q", "-m", "files")
        return self.git("rev-parse", "HEAD")


def made(folder: Path) -> Place:
    """The folders, with an empty history."""
    place = Place(folder / "history", folder / "elsewhere", folder / "home")
    for path in place:
        path.mkdir()
    place.git("init", "-q")
    return place


def wrong_figures(place: Place, folder: Path, words: Sequence[str], wanted: str) -> Optional[str]:
    """What is wrong with the figures that these words should give."""
    done = place.run(folder, str(SCRIPT), *words)
    if (done.returncode, done.stdout, done.stderr) == (0, wanted, ""):
        return None
    return f"moved {' '.join(words)}: status {done.returncode}, {done.stderr}\n{done.stdout}\nand not\n{wanted}"


def wrong_refusal(place: Place, folder: Path, words: Sequence[str], wanted: str) -> Optional[str]:
    """What is wrong with the refusal of these words, which should say what is wanted."""
    done = place.run(folder, str(SCRIPT), *words)
    if (done.returncode, done.stdout) == (2, "") and wanted in done.stderr and "Traceback" not in done.stderr:
        return None
    return f"moved {' '.join(words)}: status {done.returncode}, {done.stdout}{done.stderr}\nand not {wanted}"


def figures(place: Place, old: str, new: str) -> Iterator[Optional[str]]:
    """The figures of the two commits, asked for in all ways."""
    root, below = place.history, place.history / "crates" / "a" / "src"
    title = f"From {old[:12]} to {new[:12]}:\n\n"
    both = f"{title}{KINDS}\n{BETWEEN}"
    yield wrong_figures(place, root, (old, new), both)
    yield wrong_figures(place, root, ("HEAD~1", "HEAD"), both)
    yield wrong_figures(place, below, (old, new), both)
    yield wrong_figures(place, root, ("--by-crate", old, new), f"{both}\n{CRATES}")
    yield wrong_figures(place, below, (old, new, "--by-crate"), f"{both}\n{CRATES}")
    yield wrong_figures(place, root, (old, old), f"From {old[:12]} to {old[:12]}:\n\n{SAME}")
    # what is not committed does not count
    (root / "crates" / "a" / "src" / "lib.rt").write_bytes(b"")
    yield wrong_figures(place, root, (old, new), both)
    attributes = place.home / "attributes"
    attributes.write_text("* -diff\n", encoding="utf-8")
    (place.home / ".gitconfig").write_text(SETTINGS.format(attributes=attributes), encoding="utf-8")
    yield wrong_figures(place, below, ("--by-crate", old, new), f"{both}\n{CRATES}")
    (place.home / ".gitconfig").unlink()


def refusals(place: Place, old: str) -> Iterator[Optional[str]]:
    """Words that are no two commits."""
    root = place.history
    tree = place.git("rev-parse", f"{old}^{{tree}}")
    yield wrong_refusal(place, root, (), "required: OLD, NEW")
    yield wrong_refusal(place, root, (old,), "required: NEW")
    yield wrong_refusal(place, root, (old, old, old), "unrecognized arguments")
    yield wrong_refusal(place, root, ("--by-kind", old, old), "unrecognized arguments")
    yield wrong_refusal(place, root, ("--by", old, old), "unrecognized arguments")
    for word in ("no-such-commit", "0" * 40, tree, f"{old}:README.md", f"^{old}", f"{old}..{old}", ""):
        yield wrong_refusal(place, root, (word, old), f"there is no commit '{word}'")
        yield wrong_refusal(place, root, (old, word), f"there is no commit '{word}'")
    yield wrong_refusal(place, root, ("--", "--since=1", old), "there is no commit '--since=1'")
    yield wrong_refusal(place, place.elsewhere, (old, old), "not a git repository")


def main() -> int:
    with tempfile.TemporaryDirectory() as folder:
        place = made(Path(folder).resolve())
        old = place.commit(OLD, ())
        new = place.commit(NEW, ("tests/run",))
        outcomes: List[Optional[str]] = [*figures(place, old, new), *refusals(place, old)]
    wrong = [outcome for outcome in outcomes if outcome is not None]
    return ended(len(outcomes), wrong)


if __name__ == "__main__":
    sys.exit(main())

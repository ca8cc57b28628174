#!/usr/bin/env python3
"""The places that the pages under docs/ and the READMEs name are there.

A name is a word with a slash in it between backticks, or anywhere on a page a word that begins with a folder of the
repository. It is a file or folder of the repository, one below crates/, a folder that crates have (`specs/`), or an edit
`CRATE/NAME` in crates/CRATE/must-fail/; a star stands for any name, and something has to be found for it. A source file's name
alone between backticks, or a page's anywhere, is that of a file in some folder. A link is looked up from its page. Prints what is
missing and ends with 'N passed, M failed', among which are the checker's own samples.
"""

import re
import sys
from functools import lru_cache
from pathlib import Path
from typing import FrozenSet, Iterator, List, NamedTuple, Set

from last_line import ended

# Written out: a folder that is gone must not take its names along.
FOLDERS = (".ci", "bench", "crates", "docs", "examples", "include", "python", "tests", "tools")
SPAN = re.compile(r"`([^`]+)`")
IN_SPAN = re.compile(r".*/.*|[\w-]+\.(?:antt|awk|c|h|md|py|rs|rt|sh|txt)")
PLAIN = re.compile(rf"(?<![\w./-])(?:(?:{'|'.join(map(re.escape, FOLDERS))})/[\w./*-]*|[A-Z-]+\.md\b)")
LINK = re.compile(r"\]\(([^)\s]+)\)")
# What a run or a reader makes.
MADE = ("target/", "python/libverriblom.so", "digits.h", "digits.rs")
# Patterns, in which CRATE stands for any crate.
NO_PLACE = ("crates/CRATE/specs/", "crates/promises/proofs/CRATE.antt")


class Page(NamedTuple):
    """A page's text and the folder that it stands in."""

    text: str
    folder: Path


class Found(NamedTuple):
    """Something that a page answers for, and whether it is there."""

    what: str
    there: bool


def words(page: Page) -> Set[str]:
    """The names on a page."""
    in_spans = (word.rstrip(".,;:") for span in SPAN.findall(page.text) for word in span.split())
    in_text = (word.rstrip(".") for word in PLAIN.findall(page.text))
    return {word for word in in_spans if IN_SPAN.fullmatch(word)} | set(in_text)


def links(page: Page) -> Set[str]:
    """The files that a page links to."""
    targets = (target.partition("#")[0] for target in LINK.findall(page.text) if "://" not in target)
    return {target for target in targets if target}


@lru_cache(maxsize=None)
def file_names(root: Path) -> FrozenSet[str]:
    """The names of all files, but for those that a run makes."""
    below = (path for folder in FOLDERS for path in (root / folder).glob("**/*"))
    return frozenset(path.name for path in (*root.glob("*"), *below) if path.is_file())


def is_there(root: Path, name: str) -> bool:
    """Whether the repository has the place."""
    if name.startswith("/"):
        return False
    first, slash, rest = name.partition("/")
    if not slash:
        return name in file_names(root)
    places = (name, f"crates/{name}", f"crates/{first}/must-fail/{rest}.edit" if rest else f"crates/*/{name}")
    return any(True for place in places for _ in root.glob(place))


def looked_up(root: Path, page: Page) -> Iterator[Found]:
    """All that the page answers for. After a backtick without its fellow no span is one."""
    yield Found("a backtick without its fellow", page.text.count("`") % 2 == 0)
    for name in sorted(words(page)):
        if not name.startswith(MADE) and name not in NO_PLACE:
            yield Found(f"{name}, which is not there", is_there(root, name))
    for target in sorted(links(page)):
        yield Found(f"a link to {target}, which is not there", (page.folder / target).exists())


RIGHT = """\
`docs/PROVED.md`, `crates/*/specs/`, `specs/`, `arithmetic/nan_is_finite`, `tools/program target/bin/answers`, docs/PROVED.md.
`crates/CRATE/specs/`, `steps.c`, `digits.h`, PROVED.md, [a page](docs/PROVED.md), [elsewhere](https://example.org/), J/mol, 1.5.
"""
# Each line has one thing that is not there.
WRONG = """\
`docs/VANISHED.md`
`crates/*/gone/`
`gone/`
`arithmetic/no_such_edit`
`/etc/hosts`
`tools/gone OLD NEW`
docs/VANISHED.md without backticks
(see tests/gone)
`Vanished.antt`
VANISHED.md without a folder
[a page](vanished.md)
`a` and `b
"""


def samples(root: Path) -> Iterator[Found]:
    """The checker on pages of which it is known what is there."""
    wrong = [found.what for found in looked_up(root, Page(RIGHT, root)) if not found.there]
    yield Found(f"the right sample, in which it misses {wrong}", not wrong)
    for line in WRONG.splitlines():
        missed = [found.what for found in looked_up(root, Page(line, root)) if not found.there]
        yield Found(f"the sample '{line}', in which it misses {missed}", len(missed) == 1)


def exceptions(pages: List[Page]) -> Iterator[Found]:
    """Each exception is still of use to a page."""
    named = [name for page in pages for name in words(page)]
    for entry in (*MADE, *NO_PLACE):
        yield Found(f"the exception {entry}, which no page needs", any(name.startswith(entry) for name in named))


def main() -> int:
    root = Path(__file__).resolve().parent.parent
    paths = [root / "README.md", root / "bench" / "README.md", *sorted((root / "docs").glob("**/*.md"))]
    # a landing's note speaks of the tree as it was, and so do the port's page and the design pass's, which have old beside new
    history = ("docs/landings/M-*.md", "docs/PORT.md", "docs/DESIGN-PASS.md")
    paths = [path for path in paths if not any(path.match(page) for page in history)]
    pages = [Page(path.read_text(encoding="utf-8"), path.parent) for path in paths]
    everything = [("tests/places.py", found) for found in (*samples(root), *exceptions(pages))]
    for path, page in zip(paths, pages):
        everything.extend((str(path.relative_to(root)), found) for found in looked_up(root, page))
    wrong = [f"{where} has {found.what}" for where, found in everything if not found.there]
    return ended(len(everything), wrong)


if __name__ == "__main__":
    sys.exit(main())

#!/usr/bin/env python3
"""docs/LOGARITHM.md says what the code of ln has: the sheet of 1/n, and a logarithm worked by hand with it.

The code's constants are held to 1 divided by n, their decimals and the bits beside them; the page to what tools/logarithm
prints of them; the steps that it works to the stored answers of the package. Prints what is wrong and ends with
'N passed, M failed', among which are samples, each wrong in one place that has to be found.
"""

import math
import re
import subprocess
import sys
from decimal import Decimal
from importlib.machinery import SourceFileLoader
from importlib.util import module_from_spec, spec_from_loader
from pathlib import Path
from typing import Any, Iterator, List, NamedTuple, Sequence, Tuple

from last_line import ended

ROOT = Path(__file__).resolve().parent.parent
SCRIPT = ROOT / "tools" / "logarithm"


def loaded(script: Path) -> Any:
    """The functions of a script whose name does not end in .py."""
    loader = SourceFileLoader(script.name, str(script))
    spec = spec_from_loader(script.name, loader)
    assert spec is not None
    module = module_from_spec(spec)
    loader.exec_module(module)
    return module


TOOL = loaded(SCRIPT)
ODD = range(1, 22, 2)
STEPS = re.compile(r"^fn steps\(.*?^\{\n(.*?)^\}$", re.MULTILINE | re.DOTALL)
STORED = re.compile(r"^2 ([0-9a-f]{16}) [0-9a-f]{16} (\d+) (\S{16})$", re.MULTILINE)
# The page's own x, and one whose result is not the nearest binary64.
WORKED, BESIDE = 400.0, 10.0


class Tree(NamedTuple):
    """The texts that are held against each other."""

    code: str
    definition: str
    page: str
    answers: str


class Check(NamedTuple):
    """What is wrong unless it holds."""

    complaint: str
    holds: bool


def of_constants(constants: Sequence[Any]) -> Iterator[Check]:
    """Each is 1/n, written as its shortest decimal with its bits beside it."""
    yield Check("the constants are not those of n = 1, 3, .. 21 in this order", [c.n for c in constants] == list(ODD))
    for constant in constants:
        quotient = 1.0 / constant.n
        yield Check(f"1/{constant.n} is not {constant.decimal}", constant.decimal == repr(quotient))
        yield Check(f"the bits of 1/{constant.n} are not {constant.bits}", constant.bits == TOOL.bits_of(quotient))


def of_code(code: str) -> Iterator[Check]:
    """No division is left where 1/n is asked for."""
    steps = STEPS.search(code)
    yield Check("the code has no function steps", steps is not None)
    yield Check("the code's steps divide", steps is not None and "/" not in steps.group(1))


def of_definition(definition: str) -> Iterator[Check]:
    """The quotients stand where the sheet says."""
    steps = re.search(r"^ln_steps s \(suc k\) H = real 1 ⊘ real \(2 \* k \+ 1\) ", definition, re.MULTILINE)
    yield Check("ln_steps has no 1 ⊘ (2·k + 1)", steps is not None)
    work = re.search(r"^ln_work m e =\n(?: .*\n)* .*ln_steps s 10 \(real 1 ⊘ real 21\)", definition, re.MULTILINE)
    yield Check("ln_work has no 1 ⊘ 21 before ten steps", work is not None)


def by_hand(x: float, constants: Sequence[Any]) -> List[Any]:
    """The steps of ln x."""
    return list(TOOL.worked(x, constants))


def of_page(page: str, constants: Sequence[Any]) -> Iterator[Check]:
    """Both tables, line by line and as a whole, and what is said of the results."""
    tables = [list(TOOL.sheet(constants)), list(TOOL.by_hand(by_hand(WORKED, constants)))]
    lines = page.splitlines()
    for line in (line for table in tables for line in table):
        yield Check(f"the page has no line '{line}'", line in lines)
    for table in tables:
        yield Check(f"the page's table from '{table[0]}' on is another", "\n\n{}\n\n".format("\n".join(table)) in page)
    nearest = {x: TOOL.bits_of(float(Decimal(x).ln())) for x in (WORKED, BESIDE)}
    found = {x: TOOL.bits_of(by_hand(x, constants)[-1].value) for x in (WORKED, BESIDE)}
    yield Check("the last line of the page's logarithm is not the nearest binary64", found[WORKED] == nearest[WORKED])
    said = f"ln 10 ends with {found[BESIDE]}, and the binary64 nearest to it is {nearest[BESIDE]}."
    yield Check(f"the page does not say '{said}'", said in page and found[BESIDE] != nearest[BESIDE])
    yield Check("the page has other digits of ln 400", f"ln 400 is {str(Decimal(WORKED).ln())[:22]}.., " in page)
    yield Check("the page has other digits of 1/3", f"1/3 is\n{Decimal(1 / 3)}, " in page)


def is_split(steps: Sequence[Any]) -> bool:
    """Whether x = m·2ᵉ with 0.75 ≤ m < 1.5, of the first three steps."""
    x, m, e = (step.value for step in steps[:3])
    return 0.75 <= m < 1.5 and math.ldexp(m, int(e)) == x and e == int(e)


def of_answer(bits: str, code: str, result: str, constants: Sequence[Any]) -> Iterator[Check]:
    """A stored ln ends as by hand, and there begins with a split of x."""
    complaint = f"the stored ln of {bits} is {code} {result}"
    try:
        steps = by_hand(TOOL.number_in(f"0x{bits}"), constants)
    except TOOL.Refused as refused:
        yield Check(complaint, str(refused).endswith(f" with {code}") and result == "-" * 16)
        return
    yield Check(complaint, (code, result) == ("0", TOOL.bits_of(steps[-1].value)))
    yield Check(f"by hand {bits} is not m·2ᵉ with 0.75 ≤ m < 1.5", is_split(steps))


def of_answers(answers: str, constants: Sequence[Any]) -> Iterator[Check]:
    """Every stored ln; each way to end is among them."""
    stored = STORED.findall(answers)
    codes = {code for _, code, _ in stored}
    yield Check(f"the stored answers of ln have the codes {codes}", codes == {"0", "2", "12"})
    for bits, code, result in stored:
        yield from of_answer(bits, code, result, constants)


def asked(*words: str) -> Tuple[int, str, str]:
    """How the command ends with these words: its status and what it prints."""
    done = subprocess.run([SCRIPT, *words], capture_output=True, check=False, encoding="utf-8")
    return done.returncode, done.stdout, done.stderr


def of_command(code: str) -> Iterator[Check]:
    """What the command prints, and what it refuses."""
    constants = TOOL.constants_in(code)
    hand = "\n".join(TOOL.by_hand(by_hand(WORKED, constants)))
    for words, table in ((), "\n".join(TOOL.sheet(constants))), (("400",), hand), (("0x4079000000000000",), hand):
        yield Check(f"logarithm {words} does not print its table", asked(*words) == (0, f"{table}\n", ""))
    refused = [("one number", "1", "2"), ("no number", "x"), ("with 2", "nan"), ("with 12", "0"), ("with 12", "2e18")]
    for said, *words in refused:
        status, printed, told = asked(*words)
        holds = (status, printed) == (2, "") and said in told and "Traceback" not in told
        yield Check(f"logarithm {words} does not say '{said}'", holds)


def checks(tree: Tree) -> Iterator[Check]:
    """All that is held."""
    yield from of_code(tree.code)
    yield from of_definition(tree.definition)
    try:
        constants = TOOL.constants_in(tree.code)
    except TOOL.Refused as refused:
        yield Check(str(refused), False)
        return
    yield from of_constants(constants)
    if len(constants) == len(ODD):
        yield from of_page(tree.page, constants)
        yield from of_answers(tree.answers, constants)


def complaints(tree: Tree) -> List[str]:
    """What is wrong, one line each."""
    return [check.complaint for check in checks(tree) if not check.holds]


class Sample(NamedTuple):
    """One text with one place changed, and the words that have to be said of it."""

    text: str
    old: str
    new: str
    said: str


THIRD = "    0.3333333333333333, // 1/3 3fd5555555555555\n"
FIFTH = "    0.2, // 1/5 3fc999999999999a\n"
SAMPLES: List[Sample] = [
    Sample("code", "0.3333333333333333,", "0.33333333333333337,", "1/3 is not 0.33333333333333337"),
    Sample("code", "0.3333333333333333,", "0.33333333333333331,", "1/3 is not 0.33333333333333331"),
    Sample("code", "0.2, // 1/5", "1.0 / 5.0, // 1/5", "the code has no table"),
    Sample("code", "3fd5555555555555", "3fd5555555555556", "the bits of 1/3 are not 3fd5555555555556"),
    Sample("code", " // 1/9 3fbc71c71c71c71c", "", "the code has no table"),
    Sample("code", "RECIPROCALS: [", "INVERSES: [", "the code has no table"),
    Sample("code", THIRD + FIFTH, FIFTH + THIRD, "not those of n = 1, 3, .. 21"),
    Sample("code", FIFTH, "", "not those of n = 1, 3, .. 21"),
    Sample("code", "h = RECIPROCALS[k] + s * h", "h = 1.0 / by + s * h", "the code's steps divide"),
    Sample("code", "fn steps(", "fn turns(", "the code has no function steps"),
    Sample("definition", "real (2 * k + 1)", "real (2 * k + 3)", "ln_steps has no"),
    Sample("definition", "real 1 ⊘ real 21", "real 1 ⊘ real 23", "ln_work has no"),
    Sample("definition", "ln_steps s 10", "ln_steps s 9", "ln_work has no"),
    Sample("page", "3fc2492492492492", "3fc2492492492493", "the page has no line '| 7 "),
    Sample("page", "| 0.2 |", "| 0.25 |", "the page has no line '| 5 "),
    Sample("page", "`RECIPROCALS[4]`", "`RECIPROCALS[5]`", "the page has no line '| 9 "),
    Sample("page", "real (2 * k + 1)`, k = 8", "real (2 * k + 1)`, k = 9", "the page has no line '| 17 "),
    Sample("page", "| step | decimal |", "| step | digits |", "the page's table from '| step |"),
    Sample("page", "| m + 1 | 1.78125 |", "| m + 1 | 1.78126 |", "the page has no line '| m + 1 |"),
    Sample("page", "| 4017f7427b73e391 |", "| 4017f7427b73e392 |", "the page has no line '| ln x ="),
    Sample("page", "| 2·z |", "\n| 2·z |", "the page's table from '| step |"),
    Sample("page", "nearest to it is 40026bb1bbb55516", "nearest to it is 40026bb1bbb55515", "the page does not say"),
    Sample("page", "ln 400 is 5.99", "ln 400 is 5.98", "the page has other digits of ln 400"),
    Sample("page", "328125, and", "328126, and", "the page has other digits of 1/3"),
    Sample("answers", "4017f7427b73e391", "4017f7427b73e392", "the stored ln of 4079000000000000"),
    Sample("answers", "2 bff0000000000000 0000000000000000 12", "2 bff0000000000000 0000000000000000 2", "the stored ln of bff0"),
    Sample("answers", "\n2 ", "\n4 ", "the stored answers of ln have the codes"),
]


def of_samples(tree: Tree) -> Iterator[Check]:
    """Each change is made in the tree's own text, and is found."""
    for sample in SAMPLES:
        text: str = getattr(tree, sample.text)
        changed = tree._replace(**{sample.text: text.replace(sample.old, sample.new)})
        said = any(sample.said in complaint for complaint in complaints(changed))
        yield Check(f"'{sample.said}' was to be said of '{sample.new}' in the {sample.text}", sample.old in text and said)


def read_tree(root: Path) -> Tree:
    """What the repository has."""
    crates = root / "crates"
    places = ("logarithms/src/lib.rt", "logarithms/specs/Ln.antt", "../docs/LOGARITHM.md", "test_vectors/stdout")
    return Tree(*((crates / place).read_text(encoding="utf-8") for place in places))


def main() -> int:
    tree = read_tree(ROOT)
    everything = [*checks(tree), *of_samples(tree)]
    if all(check.holds for check in everything):
        everything.extend(of_command(tree.code))
    return ended(len(everything), [check.complaint for check in everything if not check.holds])


if __name__ == "__main__":
    sys.exit(main())

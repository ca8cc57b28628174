#!/usr/bin/env python3
"""Every public function is promised: it has an `ensures` and no `requires`, a row in docs/PROMISES.md, and a theorem in
crates/promises that its contract allows one outcome.

So is every conversion, an `impl From<A> for B` or `impl TryFrom<A> for B`: what `from` or `try_from` gives stands in its ghost
member, `from_gives` or `try_from_gives`, and where this is left out the trait's own promises nothing. Its row is that of
`CRATE::B::from(A)`. What another trait's functions promise is not looked at, and so no such impl is written, but for `Model`, which
has no function; what a type derives is the library's.

No crate can stand on a static library, so that no theorem can name its functions. Those of the static library LIBRARY_c are held
to the crate LIBRARY instead: each is a call for C that has the name, the parameters and, word for word, the clauses of a function
there and only calls it, and each function there has one; what the clauses' words mean it imports as LIBRARY does.

Prints what is wrong and ends with 'N passed, M failed': one check for each function and rule, and the checker's own
samples, each of which must be found wrong.
"""

import re
import sys
import textwrap
from pathlib import Path
from typing import Dict, Iterator, List, NamedTuple, Set, Tuple

from last_line import ended

PUBLIC = re.compile(r'^[ \t]*pub ((?:[\w"]+ )*)fn (\w+)', re.MULTILINE)
ENSURES, REQUIRES = re.compile(r"\bensures (?:\w+ )?\{"), re.compile(r"\brequires (?:\w+ )?\{")
PARAMETER = re.compile(r"(?:^|,)\s*(\w+):")
IMPORT = re.compile(r"^ghost use ([^;{]+)(?:\{([^}]*)\})?;", re.MULTILINE)
IMPL = re.compile(r"^([ \t]*)(?:unsafe )?impl\b(?:<[^{;]*?>)?\s+([^{;]+?)\s+for\s+([^{;]+?)\s*\{", re.MULTILINE)
CONVERSION = re.compile(r"(?:\w+::)*(From|TryFrom)<(.+)>")
METHODS = {"From": "from", "TryFrom": "try_from"}
WITHOUT_FUNCTIONS = ("Model",)
ROW = re.compile(r"^\| `(\w+::[^`]+)` \|", re.MULTILINE)
THEOREM = re.compile(r"^use Rattle\.(\w+)\.proofs\.([\w.]+)\.Reads as (\w+)_reads$", re.MULTILINE)
STATIC = re.compile(r"^(\w+)_c staticlib:", re.MULTILINE)
RULES = 4  # those of a public function, and as many of a call for C


class Function(NamedTuple):
    """A public function or a conversion: its name, its text from `pub` to its body, with a conversion's other members before it,
    the body, whether C can call it by its name, what its promise stands in, and the module of its proof."""

    name: str
    head: str
    body: str
    is_for_c: bool
    promise: str
    proof: str

    def is_promised(self) -> bool:
        """Whether its promise is there."""
        if self.promise == "ensures":
            return bool(ENSURES.search(self.head))
        return bool(re.search(rf"^ghost {self.promise} = \{{", self.head, re.MULTILINE))

    def is_proved_in(self, module: str) -> bool:
        """Whether its proof stands there. A conversion's stands below the module of its source file, if that is not the first."""
        return module == self.proof or (self.promise != "ensures" and module.endswith(f".{self.proof}"))


class Crate(NamedTuple):
    """A crate's public functions and conversions, what its clauses import, and the other traits that it has an impl of."""

    functions: List[Function]
    imports: Set[str]
    traits: List[str]


class Tree(NamedTuple):
    """The texts that are held against each other."""

    crates: Dict[str, Crate]
    static: List[str]  # the libraries that have a static library of their functions
    table: str
    theorems: List[str]  # a text for each file

    @property
    def functions(self) -> List[Function]:
        """All public functions but those of static libraries."""
        return [function for name, crate in self.crates.items() if not self.is_static(name) for function in crate.functions]

    def is_static(self, name: str) -> bool:
        """Whether the crate of that name is a static library."""
        return name in map(calls_of, self.static)


def calls_of(library: str) -> str:
    """The static library of a library's functions."""
    return f"{library}_c"


def parted(text: str) -> Tuple[str, str]:
    """The function that a text begins with, cut before its body, and the body. After a contract a body starts with a brace on
    a line of its own, and without one on the function's, so that the next such line is another function's."""
    with_body = text[: text.find("\n}")]
    end = with_body.find("\n{")
    end = end if end >= 0 else with_body.find("{")
    return with_body[:end], with_body[end:].lstrip("\n")[1:]


def functions_of(crate: str, source: str) -> Iterator[Function]:
    """The public functions of a source text."""
    for found in PUBLIC.finditer(source):
        head, body = parted(source[found.start() :])
        name = found.group(2)
        is_for_c = found.group(1) == 'extern "C" ' and source[: found.start()].endswith("\n#[unsafe(no_mangle)]\n")
        yield Function(f"{crate}::{name}", head, body, is_for_c, "ensures", name)


def conversions_of(crate: str, source: str) -> Iterator[Function]:
    """The conversions of a source text. `impl TryFrom<u32> for B` is proved in `BTryFromU32.try_from`."""
    for found in IMPL.finditer(source):
        conversion = CONVERSION.fullmatch(found.group(2))
        if conversion is None:
            continue
        trait, start = conversion.groups()
        end, method = found.group(3).partition("\nwhere")[0], METHODS[trait]
        inside = source[found.end() :]
        members = textwrap.dedent(inside[: inside.find(f"\n{found.group(1)}}}") + 1])
        before, fn, after = members.partition(f"\nfn {method}(")
        head, body = parted(fn.lstrip("\n") + after)
        proof = f"{end[:1].upper()}{end[1:]}{trait}{start[:1].upper()}{start[1:]}.{method}"
        yield Function(f"{crate}::{end}::{method}({start})", f"{before}\n{head}", body, False, f"{method}_gives", proof)


def other_traits(source: str) -> Iterator[str]:
    """The traits with functions, besides those of conversions, that a source text has an impl of."""
    traits = (found.group(2) for found in IMPL.finditer(source))
    yield from (trait for trait in traits if not CONVERSION.fullmatch(trait) and trait not in WITHOUT_FUNCTIONS)


def imported(source: str) -> Iterator[str]:
    """The words that a source text imports for its clauses, each with the path that it is from."""
    for path, words in IMPORT.findall(source):
        yield from (f"{path}{' '.join(word.split())}" for word in words.rstrip(", \n").split(","))


def crate_of(name: str, sources: List[str]) -> Crate:
    """A crate of these source texts."""
    functions = [function for source in sources for function in functions_of(name, source)]
    conversions = [conversion for source in sources for conversion in conversions_of(name, source)]
    imports = {word for source in sources for word in imported(source)}
    return Crate(functions + conversions, imports, [trait for source in sources for trait in other_traits(source)])


def read_tree(root: Path) -> Tree:
    """What the repository has."""
    sources: Dict[str, List[str]] = {}
    for source in sorted(root.glob("crates/*/src/**/*.rt")):
        crate = source.relative_to(root / "crates").parts[0]
        sources.setdefault(crate, []).append(source.read_text(encoding="utf-8"))
    proofs = sorted(root.glob("crates/promises/proofs/*.antt"))
    return Tree(
        {name: crate_of(name, texts) for name, texts in sources.items()},
        STATIC.findall((root / "crates.txt").read_text(encoding="utf-8")),
        (root / "docs" / "PROMISES.md").read_text(encoding="utf-8"),
        [proof.read_text(encoding="utf-8") for proof in proofs],
    )


def says(theorems: str, alias: str, what: str) -> bool:
    """Whether the theorem `ALIAS_one` says this of what the contract tells. Its statement ends where a line starts."""
    statement = re.search(rf"^pub {re.escape(alias)}_one :.*\n(?:[ \t].*\n)*", theorems, re.MULTILINE)
    said = statement.group().split() if statement else []
    return what in said and f"{alias}_reads.Learnt" in said


def theorem_for(function: Function) -> str:
    """What is to be said of the function: it has one result; one outcome where memory is lent to it to be written; and the
    same bytes, or the same items of another kind, where its result is lent to be read. What reads from a reader had the same of
    bytes that are known."""
    if ": Read>" in function.head:
        return "OneReading"
    if "&mut " in function.head:
        return "OneOutcome"
    if "-> &" in function.head:
        return "OneBytes" if "-> &[u8]" in function.head else "OneSlice"
    return "OneResult"


def theorems_of(function: Function, files: List[str]) -> int:
    """How many theorems say it."""
    what = theorem_for(function)
    return sum(
        crate == function.name.partition("::")[0] and function.is_proved_in(proof) and says(theorems, alias, what)
        for theorems in files
        for crate, proof, alias in THEOREM.findall(theorems)
    )


# ---- calls for C


def declared(function: Function) -> str:
    """The name, parameters, result and clauses of a function, whatever the layout."""
    plain = " ".join(PUBLIC.sub(r"fn \2", function.head).split())
    return plain.replace("( ", "(").replace(", )", ")")


def call_of(function: Function) -> str:
    """The call of a function with its own parameters."""
    parameters = function.head[function.head.find("(") + 1 : function.head.find(")")]
    return f"{function.name}({','.join(PARAMETER.findall(parameters))})"


def is_call_of(function: Function, body: str) -> bool:
    """Whether a body is that call and nothing else."""
    return "".join(body.split()).replace(",)", ")") == call_of(function)


def wrong_calls(library: str, tree: Tree) -> Iterator[str]:
    """What is wrong with a library's calls for C."""
    ours = tree.crates.get(library, Crate([], set(), []))
    calls = tree.crates.get(calls_of(library), Crate([], set(), []))
    by_name = {function.name: function for function in ours.functions}
    named = [f"{library}::{call.name.partition('::')[2]}" for call in calls.functions]
    for call, name in zip(calls.functions, named):
        function = by_name.get(name)
        if not call.is_for_c:
            yield f"{call.name} is no call for C"
        if function is None:
            yield f"{call.name} is no function of {library}"
            continue
        if declared(call) != declared(function):
            yield f"{call.name} is not declared as {function.name}"
        if not is_call_of(function, call.body):
            yield f"{call.name} does not only call {function.name}"
    for name in by_name:
        if named.count(name) != 1:
            yield f"{name} has {named.count(name)} calls for C"
    if not calls.imports <= ours.imports:
        yield f"{calls_of(library)} imports {' '.join(sorted(calls.imports - ours.imports))} and {library} does not"


# ---- all


def wrong_promises(tree: Tree) -> Iterator[str]:
    """What is wrong with the public functions, one line each."""
    rows = ROW.findall(tree.table)
    names = [function.name for function in tree.functions]
    for function in tree.functions:
        if not function.is_promised():
            yield f"{function.name} has no {function.promise}"
        if REQUIRES.search(function.head):
            yield f"{function.name} has a requires"
        if rows.count(function.name) != 1:
            yield f"{function.name} has {rows.count(function.name)} rows in docs/PROMISES.md"
        if (proved := theorems_of(function, tree.theorems)) != 1:
            yield f"{function.name} has {proved} theorems in crates/promises"
    yield from (f"docs/PROMISES.md has {row}, which is no public function" for row in rows if row not in names)
    for name, crate in tree.crates.items():
        yield from (f"{name} has an impl of {trait}, whose promises are not looked at" for trait in crate.traits)


def complaints(tree: Tree) -> List[str]:
    """All that is wrong."""
    return [*wrong_promises(tree), *(wrong for library in tree.static for wrong in wrong_calls(library, tree))]


def checks(tree: Tree) -> int:
    """How many rules are held."""
    of_functions = RULES * len(tree.functions)
    of_calls = sum(
        RULES * len(tree.crates[calls_of(library)].functions) + len(tree.crates[library].functions) + 1 for library in tree.static
    )
    return of_functions + of_calls + len(tree.crates)


SOURCE = "ghost use A.{q, r};\n\npub fn f(x: u8) -> u8\n    ensures { r }\n{\n    x\n}\n"
PRIVATE = "\nfn g(x: u8) -> u8\n    ensures { r }\n{\n    x\n}\n"
TABLE = "| `a::f` | x |\n"
THEOREM_OF_F = "use Rattle.a.proofs.f.Reads as f_reads\npub f_one : OneResult\n    f_reads.Learnt\nf_one p q = p\n"
THEOREM_OF_G = "use Rattle.a.proofs.g.Reads as g_reads\npub g_one : OneResult g_reads.Learnt\ng_one p q = p\n"
CONVERSIONS = """
impl TryFrom<u32> for B {
    type Error = C;

    ghost try_from_gives = { λ n b. b ≡ q n };

    fn try_from(n: u32) -> Result<B, C> {
        Err(C)
    }
}

impl From<B> for u32 {
    ghost from_gives = { λ b n. n ≡ r b };

    fn from(b: B) -> u32 {
        0
    }
}

impl Model for B {
    ghost Value = { ℕ };
}
"""
TABLE_OF_CONVERSIONS = f"{TABLE}| `a::B::try_from(u32)` | x |\n| `a::u32::from(B)` | x |\n"
THEOREM_OF_TRY_FROM = """use Rattle.a.proofs.BTryFromU32.try_from.Reads as try_from_reads
pub try_from_one : OneResult try_from_reads.Learnt
try_from_one p q = p
"""
THEOREM_OF_FROM = """use Rattle.a.proofs.U32FromB.from.Reads as from_reads
pub from_one : OneResult from_reads.Learnt
from_one p q = p
"""
THEOREMS_OF_CONVERSIONS = THEOREM_OF_F + THEOREM_OF_TRY_FROM + THEOREM_OF_FROM
CALL = """ghost use A.{r};

#[unsafe(no_mangle)]
pub extern "C" fn f(
    x: u8,
) -> u8
    ensures { r }
{
    a::f(
        x,
    )
}
"""


def sample(source: str = SOURCE, table: str = TABLE, theorems: str = THEOREM_OF_F, calls: str = CALL) -> Tree:
    """A tree of one crate `a` with its calls for C, right but for what is given."""
    crates = {"a": crate_of("a", [source]), "a_c": crate_of("a_c", [calls])}
    return Tree(crates, ["a"], table, [theorems, "pub g_one : OneResult f_reads.Learnt\n"])


def alone(source: str, **texts: str) -> Tree:
    """One with no calls for C."""
    return sample(source, **texts)._replace(static=[], crates={"a": crate_of("a", [source])})


def converting(old: str = "", new: str = "", table: str = TABLE_OF_CONVERSIONS, theorems: str = THEOREMS_OF_CONVERSIONS) -> Tree:
    """One that has conversions too, right but for what is given and the old text, in whose place stands the new."""
    return alone(SOURCE + CONVERSIONS.replace(old, new, 1) if old else SOURCE + CONVERSIONS, table=table, theorems=theorems)


class Sample(NamedTuple):
    """A tree that is wrong, and the one thing to be said of it."""

    complaint: str
    tree: Tree


WITH_G = f"{SOURCE}{PRIVATE.replace('fn', 'pub fn')}"
SAMPLES: List[Sample] = [
    Sample("a::f has no ensures", alone(SOURCE.replace("ensures", "// ensures:"))),
    Sample("a::f has no ensures", alone("pub fn f(x: u8) -> u8 {\n    x\n}\n" + PRIVATE)),
    Sample("a::f has no ensures", alone('    pub unsafe extern "C" fn f(x: u8) {\n    }\n')),
    Sample("a::f has a requires", alone(SOURCE.replace("    ensures", "    requires { p }\n    ensures"))),
    Sample("a::f has a requires", alone(SOURCE.replace("    ensures", "    requires named { p }\n    ensures"))),
    Sample("a::f has 0 rows", sample(table="")),
    Sample("a::f has 2 rows", sample(table=TABLE * 2)),
    Sample("a::f has 0 theorems", sample(theorems="")),
    Sample("a::f has 0 theorems", sample(theorems=THEOREM_OF_F.replace("f_one", "g_one"))),
    Sample("a::f has 0 theorems", sample(theorems=THEOREM_OF_F.replace("OneResult", "Anything"))),
    Sample("a::f has 0 theorems", sample(theorems=THEOREM_OF_F.replace("    f_reads", "    g_reads"))),
    Sample("a::f has 0 theorems", alone(SOURCE.replace("x: u8", "x: &mut [u8]"))),
    Sample("a::f has 0 theorems", alone(SOURCE.replace("(x: u8)", "<R: Read>(x: R)"))),
    Sample("a::f has 0 theorems", alone(SOURCE, theorems=THEOREM_OF_F.replace("OneResult", "OneReading"))),
    Sample("a::f has 0 theorems", alone(SOURCE.replace("-> u8", "-> &[u8]"))),
    Sample("a::f has 0 theorems", alone(SOURCE.replace("-> u8", "-> &'static [A]"))),
    Sample("a::f has 2 theorems", sample(theorems=THEOREM_OF_F * 2)),
    Sample("a::f, which is no public function", alone(source=PRIVATE)),
    Sample("a_c::f, which is no public function", sample(table=TABLE + "| `a_c::f` | x |\n")),
    Sample("a_c::f is no call for C", sample(calls=CALL.replace("#[unsafe(no_mangle)]\n", ""))),
    Sample("a_c::f is no call for C", sample(calls=CALL.replace('extern "C" ', ""))),
    Sample("a_c::g is no function of a", sample(calls=CALL + CALL[CALL.index("\n") :].replace(" f(", " g("))),
    Sample("a_c::f is not declared as a::f", sample(calls=CALL.replace("x: u8", "x: u16"))),
    Sample("a_c::f is not declared as a::f", sample(calls=CALL.replace("x: u8", "y: u8"))),
    Sample("a_c::f is not declared as a::f", sample(calls=CALL.replace("-> u8", "-> u16"))),
    Sample("a_c::f is not declared as a::f", sample(calls=CALL.replace("ensures { r }", "ensures { s }"))),
    Sample("a_c::f is not declared as a::f", sample(calls=CALL.replace("    ensures { r }\n", ""))),
    Sample("a_c::f is not declared as a::f", sample(calls=CALL.replace("    ensures", "    requires { p }\n    ensures"))),
    Sample("a_c::f does not only call a::f", sample(calls=CALL.replace("a::f(", "b::f("))),
    Sample("a_c::f does not only call a::f", sample(calls=CALL.replace("a::f(", "x + a::f("))),
    Sample("a_c::f does not only call a::f", sample(calls=CALL.replace("    a::f(", "    let x = 0;\n    a::f("))),
    Sample("a_c::f does not only call a::f", sample(calls=CALL.replace("        x,", "        x + 1,"))),
    Sample("a::g has 0 calls for C", sample(WITH_G, f"{TABLE}| `a::g` | x |\n", THEOREM_OF_F + THEOREM_OF_G)),
    Sample("a::f has 2 calls for C", sample(calls=CALL + CALL)),
    Sample("a_c imports B.r and", sample(calls=CALL.replace("A.{r}", "B.{r}"))),
    Sample("a_c imports A.s as r and", sample(calls=CALL.replace("A.{r}", "A.{s as r}"))),
    Sample("a_c imports B.r and", sample(calls=CALL.replace("A.{r}", "B.r"))),
    Sample("a::B::try_from(u32) has no try_from_gives", converting("    ghost try", "    // ghost try")),
    Sample("a::B::try_from(u32) has no try_from_gives", converting("ghost try_from_gives", "ghost from_gives")),
    Sample("a::B::try_from(u32) has no try_from_gives", converting("ghost try_from_gives = {", "ghost is_infallible = {")),
    Sample("a::u32::from(B) has no from_gives", converting("    ghost from_gives = { λ b n. n ≡ r b };\n", "")),
    Sample("a::B::try_from(u32) has a requires", converting("C> {", "C>\n        requires { p }\n    {")),
    Sample("a::u32::from(B) has a requires", converting("-> u32 {", "-> u32\n        requires named { p }\n    {")),
    Sample("a::B::try_from(u32) has 0 rows", converting(table=TABLE + "| `a::u32::from(B)` | x |\n")),
    Sample("a::u32::from(B) has 2 rows", converting(table=TABLE_OF_CONVERSIONS + "| `a::u32::from(B)` | x |\n")),
    Sample("has a::u32::from(C), which", converting(table=TABLE_OF_CONVERSIONS + "| `a::u32::from(C)` | x |\n")),
    Sample("has a::B::try_from, which", converting(table=TABLE_OF_CONVERSIONS + "| `a::B::try_from` | x |\n")),
    Sample("a::u32::from(B) has 0 theorems", converting(theorems=THEOREM_OF_F + THEOREM_OF_TRY_FROM)),
    Sample("a::u32::from(B) has 0 theorems", converting(theorems=THEOREMS_OF_CONVERSIONS.replace("U32FromB", "U32FromC"))),
    Sample("a::u32::from(B) has 0 theorems", converting(theorems=THEOREMS_OF_CONVERSIONS.replace("B.from.", "B."))),
    Sample("a::u32::from(B) has 0 theorems", converting(theorems=THEOREMS_OF_CONVERSIONS.replace("U32FromB", "OfU32FromB"))),
    Sample("a::f has 0 theorems", sample(theorems=THEOREM_OF_F.replace("proofs.f.", "proofs.g.f."))),
    Sample("a::B::try_from(u32) has 0 theorems", converting("n: u32", "n: &mut u32")),
    Sample("a::B::try_from(u32) has 2 theorems", converting(theorems=THEOREMS_OF_CONVERSIONS + THEOREM_OF_TRY_FROM)),
    Sample("a has an impl of Display, whose", converting("impl Model for", "impl Display for")),
    Sample("a has an impl of Add<B>, whose", converting("impl Model for", "impl<T> Add<B> for")),
]
RIGHT: List[Tree] = [
    sample(SOURCE + PRIVATE),
    converting(),
    converting("impl TryFrom", "impl std::convert::TryFrom"),
    converting(theorems=THEOREMS_OF_CONVERSIONS.replace("proofs.B", "proofs.file.B")),
]


def own_faults() -> List[str]:
    """Samples that the checker gets wrong."""
    wrong = [
        f"'{complaint}' was to be said of a sample, and not {complaints(tree)}"
        for complaint, tree in SAMPLES
        if [complaint in line for line in complaints(tree)] != [True]
    ]
    wrong.extend(f"a right sample was found wrong: {complaints(tree)}" for tree in RIGHT if complaints(tree))
    return wrong


def main() -> int:
    tree = read_tree(Path(__file__).resolve().parent.parent)
    wrong = own_faults() + complaints(tree)
    if not tree.functions or not tree.static:
        wrong.append("no public function was found, or no call for C")
    return ended(checks(tree) + len(SAMPLES) + len(RIGHT) + 1, wrong)


if __name__ == "__main__":
    sys.exit(main())

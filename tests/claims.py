"""Cases of tests/check about what README, docs/PROOFS.md and docs/proofs/ claim: the lines that a reader has to believe are counted;
the definitions that contracts name are in the reading order, or named as exceptions; and what no contract speaks of is named."""
import os
import re
from typing import Dict, List, Set

import believed
from cases import case, equal
from contracts import functions_of, functions_without_contract, named_by_contract, public_functions
from definitions import KIT, Name, is_of_kit, named_by_definition, owner_of, reached_from, text_of

README = "README.md"
PROOFS = "docs/PROOFS.md"
DEFINITIONS = "docs/proofs/definitions.md"
PROMISES = "docs/proofs/promises.md"
MODEL = "crates/model/specs"
# The errors that may say that no memory is left.
MEMORY = ("Memory", "AllocError", "ReadFault", "LoadError", "ServeFault", "ExpandFault", "NestingFault", "Error")
# How far a number that a document says may be from what is counted.
NEAR = 0.05
DAMPED = """pub data Sign : Type 0 where
  Up : Sign
  Down : Sign

-- it rises
abbrev pub turned : Sign → Sign
turned Up = Down
turned Down = Up

abbrev pub twice : Sign → Sign
twice sign = turned (turned sign)

pub record Move : Type 0 where
  pub twice : Sign
  pub count : ℕ

abbrev pub hidden : Sign → Move → Sign
hidden turned move = let x = move.twice in turned

mutual
  pub data Tree : Type 0 where
    tree : Trees → Tree

  pub data Trees : Type 0 where
    none : Trees
    more : Tree → Trees → Trees
"""
CODE = """// fn commented() -> u8 {}
fn free(n: u8) -> u8
    ensures { result ≡ n }
{
    n
}

impl<const L: usize> Spring<L> {
    pub fn new() -> Self {
        Spring { links: [0; L] }
    }
}

impl Source for &[u8] {
    fn pull(&mut self) -> Result<u8, Failed> {
        Err(Failed)
    }
}

pub trait Damper {
    fn damp(&mut self) -> u8
        requires { held self.old ≡ 0 }
        ensures value { result ≡ record { a = 1; b = 2 }.a };
}

/// It does nothing.
pub fn law()
    ensures { (n : ℕ) → n ≡ n }
{}
"""


def section(title: str, page: str = PROOFS) -> str:
    """The text below a heading of a page, up to the next one of its kind or of a higher one."""
    level = title.partition(" ")[0]
    _, _, rest = text_of(page).partition(f"\n{title}\n")
    return re.split(rf"(?m)^#{{1,{len(level)}}} ", rest)[0]


def row_files(row: str) -> List[str]:
    """The files of definitions that a row of the second table names, in the order of its text."""
    crate, names = re.match(r"`(\w+)`: (.*)", row).groups()
    return [f"crates/{crate}/specs/{it}.antt" for it in names.split(", ")]


def model_order() -> List[str]:
    """The files of the first table."""
    first, _, _ = text_of(DEFINITIONS).partition("Then, for a reader")
    return [f"{MODEL}/{it}.antt" for names in re.findall(r"(?m)^\| ([A-Z][\w, ]*) \|", first) for it in names.split(", ")]


def public_files() -> List[str]:
    """The files of both tables."""
    return [*model_order(), *(file for row in re.findall(r"(?m)^\| (`\w+`: [\w, ]+) \|", text_of(DEFINITIONS)) for file in row_files(row))]


def is_near(said: str, counted: int) -> bool:
    return abs(int(said.replace(",", "")) - counted) <= NEAR * counted


def believed_rows() -> Dict[str, List[str]]:
    """The numbers of each row of the table of what a reader believes."""
    rows = re.findall(r"(?m)^\| ([^|]+) \|((?: [\d,]+ in [\d,]+ \|| - \|)+)$", section("## What is trusted"))
    return {title.strip(): re.findall(r"[\d,]*\d", numbers) for title, numbers in rows}


def counts_of(names: Set[Name], files: Dict[str, int]) -> List[int]:
    """By name, by files, types, and what is the kit's, each with how many there are; the last two where there are some."""
    counted = believed.believed_by_name(names)
    some = [counted.definitions, believed.Count(sum(files.values()), len(files)), counted.types, counted.kit]
    return [number for it in some if it.lines for number in it]


def check_row(title: str, names: Set[Name], files: Dict[str, int]) -> None:
    said, counted = believed_rows()[title], counts_of(names, files)
    assert len(said) == len(counted) and all(map(is_near, said, counted)), f"{title}: {said} are said, {counted} are counted"


def is_kit_there() -> bool:
    return os.path.isdir(f"{KIT}/rattle/toml/specs")


@case
def proofs_counts_what_a_reader_believes():
    if not is_kit_there():
        return
    check_row("the kernel's rules", believed.names_of(believed.KERNEL), believed.believed(believed.KERNEL))
    for title, contract in (("the report of a campaign (`serve`)", believed.SERVE), ("all that the program does (`obey`)", believed.OBEY)):
        names = believed.contract_names(*contract)
        check_row(title, names, believed.believed(*{it.file for it in names}))


@case
def readme_counts_what_a_reader_believes():
    if not is_kit_there():
        return
    kernel = believed.believed_by_name(believed.names_of(believed.KERNEL))
    report = believed.believed_by_name(believed.contract_names(*believed.SERVE))
    wanted = {
        "of definitions": kernel.definitions.lines,
        "besides": report.definitions.lines,
        "of types": report.types.lines,
        "of the toolchain's definition of TOML": report.kit.lines,
    }
    text = text_of(README).replace("lines, besides", "lines besides")
    said = {words: re.search(rf"([\d,]*\d)(?: lines)? {words}", " ".join(text.split())).group(1) for words in wanted}
    equal([(words, said[words], lines) for words, lines in wanted.items() if not is_near(said[words], lines)], [])


@case
def each_file_of_the_reading_order_cites_only_those_above_it():
    order = model_order()
    assert len(order) > 20, order
    equal([(file, it) for place, file in enumerate(order) for it in believed.cited_by(file) if it not in order[:place]], [])


@case
def proofs_names_each_definition_that_a_public_contract_rests_on():
    known, text = set(public_files()), text_of(DEFINITIONS)
    equal([it for it in known if not os.path.exists(f"{believed.ROOT}/{it}")], [])
    rests_on = reached_from({name for it in public_functions() for name in named_by_contract(it)})
    others = [it for it in rests_on if it.file.endswith(".antt") and not is_of_kit(it.file) and it.file not in known]
    equal(sorted(f"{it.file}: {it.name}" for it in others if f"`{it.name}`" not in text), [])


@case
def each_file_of_the_tables_has_what_a_public_contract_rests_on():
    rests_on = {it.file for it in reached_from({name for function in public_functions() for name in named_by_contract(function)})}
    views = {f"crates/{it}.antt" for it in ("report/specs/Writing", "model/specs/Invariant")}
    equal([it for it in public_files() if it not in rests_on | views], [])


@case
def proofs_names_each_function_that_has_no_contract():
    named = re.findall(r"`([^`]+)`", section("## What is only tested"))
    words = {it for text in named for it in re.findall(r"\w+", text)}
    without = [it for it in functions_without_contract() if it.name not in words and it.owner not in words]
    equal(sorted({f"{it.file}: {it.owner}::{it.name}" for it in without}), [])


def may_lack_memory(types: str) -> bool:
    """Whether a function of these types may answer that no memory is left."""
    result = re.search(r"-> Result<.*, (\w+)>\s*(?:\{\s*)?;?$", " ".join(types.split()))
    return bool(result) and result.group(1) in MEMORY


@case
def proofs_names_each_public_function_that_may_lack_memory():
    words = {it for text in re.findall(r"`([^`]+)`", section("## Memory", PROMISES)) for it in re.findall(r"\w+", text)}
    found = [it for it in public_functions() if may_lack_memory(it.types)]
    assert len(found) > 30, found
    equal(sorted(f"{it.file}: {it.owner}::{it.name}" for it in found if not words >= {it.name, it.owner} - {""}), [])


@case
def contracts_are_read_with_their_types_and_clauses():
    with open("damped.rt", "w", encoding="utf-8") as it:
        it.write(CODE)
    found = [(it.owner, it.name, it.is_of_trait, it.is_public, "ensures" in it.clauses) for it in functions_of(os.path.abspath("damped.rt"))]
    equal(found, [("", "free", False, False, True), ("Spring", "new", False, True, False), ("u8", "pull", True, False, False),
                  ("Damper", "damp", False, False, True), ("", "law", False, True, True)])


@case
def definitions_are_read_with_their_lines_and_names():
    with open("Damped.antt", "w", encoding="utf-8") as it:
        it.write(DAMPED)
    file = os.path.abspath("Damped.antt")
    names = lambda name: sorted(it.name for it in {owner_of(it) for it in named_by_definition(file, name)})
    equal(names("twice"), ["Sign", "turned"])
    equal(names("turned"), ["Sign"])
    equal(names("hidden"), ["Move", "Sign"])
    equal(names("Tree"), ["Tree", "Trees"])
    found = {it.name: lines for it, lines in reached_from({Name(file, "twice")}).items()}
    equal(found, {"twice": 2, "turned": 3, "Sign": 3})


@case
def what_is_believed_by_name_is_in_the_files_that_are():
    for contract in (believed.SERVE, believed.OBEY):
        names = believed.contract_names(*contract)
        files = believed.believed(*{it.file for it in names})
        found = [it for it in reached_from(names) if it.file.endswith(".antt") and not is_of_kit(it.file)]
        equal(sorted({it.file for it in found} - set(files)), [])
        assert len(found) > 400, len(found)

"""Reads the contracts of functions (`src/*.rt`): which functions a crate has, which of them other crates may call, and which definitions
their clauses name."""
import glob
import os
import re
from typing import Iterator, List, NamedTuple, Set

from definitions import ROOT, Name, bound_in, named_in, text_of

TYPE = re.compile(r"(?:unsafe )?(?:impl(?:<[^>]*>)? (?P<law>[\w<>', ]+ for [&[]*)?|(?:pub(?:\(\w+\))? )?trait )(?P<name>\w+)")
FUNCTION = re.compile(r"(?P<indent>\s*)(?P<pub>pub )?(?:pub\(\w+\) )?(?:const )?fn (?P<name>\w+)")
# Crates of which no other makes use, and those that serve tests alone.
OF_TESTS = ("unit_tests", "integration_tests", "differential_tests", "allocation_failures", "random_apps", "reference_kernel")
PROGRAM = "rtosim"


class Function(NamedTuple):
    """A function of a crate: its file, the type or trait whose it is (or none), whether it is there for a trait, whether it is `pub`,
    what it is called with and gives, and its clauses."""

    file: str
    owner: str
    is_of_trait: bool
    name: str
    is_public: bool
    types: str
    clauses: str


def ends_signature(line: str, indent: str) -> bool:
    """Whether the body begins in this line of a function, or, where it has none, its last clause ends."""
    is_inner = line.startswith(f"{indent}    ")
    return bool(re.search(r"\};$", line) if is_inner else re.search(r"(?:^\s*\{|[^{ ] \{|;|\{\})$", line))


def signature_at(lines: List[str], index: int, indent: str) -> str:
    after = index
    while after + 1 < len(lines) and not ends_signature(lines[after], indent):
        after += 1
    return "\n".join(lines[index : after + 1])


def functions_of(file: str) -> Iterator[Function]:
    """The functions of a file, without those of its tests."""
    owner, is_of_trait = "", False
    lines = re.sub(r"(?m)//.*$", "", text_of(file)).splitlines()
    for index, line in enumerate(lines):
        of_type = TYPE.match(line)
        if of_type:
            owner, is_of_trait = of_type["name"], bool(of_type["law"])
        elif line == "}":
            owner, is_of_trait = "", False
        found = FUNCTION.match(line)
        if found:
            signature = signature_at(lines, index, found["indent"])
            clauses = re.search(r"\b(?:requires|ensures)\b", signature)
            split = clauses.start() if clauses else len(signature)
            yield Function(file, owner, is_of_trait, found["name"], bool(found["pub"]), signature[:split], signature[split:])


def named_by_contract(function: Function) -> Set[Name]:
    return named_in(function.file, function.clauses, bound_in(function.clauses))


# ---- crates

def crates() -> List[str]:
    """The crates of the program, lowest first; the program's own is the last of them."""
    lines = (line.split()[0].rstrip(":") for line in text_of("crates.txt").splitlines() if line and not line.startswith("#"))
    return [it for it in lines if it not in OF_TESTS]


def files_of(crate: str) -> List[str]:
    return sorted(os.path.relpath(it, ROOT) for it in glob.glob(f"{ROOT}/crates/{crate}/src/**/*.rt", recursive=True))


def exported_by(crate: str) -> Set[str]:
    """The names that a library gives to other crates: of types, of functions, and of modules."""
    text = text_of(f"crates/{crate}/src/lib.rt")
    used = re.findall(r"(?m)^pub use [\w:]+::(?:\{([^}]*)\}|(\w+));", text)
    names = {it.split(" as ")[0].strip() for group, one in used for it in (group or one).split(",")}
    return names | set(re.findall(r"(?m)^pub (?:fn|struct|enum|trait|type|mod) (\w+)", text))


def is_exported(function: Function, exported: Set[str]) -> bool:
    """Whether other crates may call it. Those of a trait's implementation have the contract of the trait."""
    module = os.path.basename(function.file)[: -len(".rt")]
    if not function.owner:
        return function.is_public and (function.name in exported or module in exported)
    is_trait = re.search(rf"(?m)^pub (?:unsafe )?trait {function.owner}\b", text_of(function.file))
    return function.owner in exported and (function.is_public or bool(is_trait))


def public_functions() -> Iterator[Function]:
    """Those of all libraries of the program."""
    for crate in crates():
        if crate != PROGRAM:
            exported = exported_by(crate)
            yield from (it for file in files_of(crate) for it in functions_of(file) if is_exported(it, exported))


def functions_without_contract() -> Iterator[Function]:
    """Those of the program's crates that promise nothing, and give or change something."""
    for crate in crates():
        for file in files_of(crate):
            for it in functions_of(file):
                if "ensures" not in it.clauses and not it.is_of_trait:
                    yield it

"""Reads definitions (`specs/*.antt`): which lines one has, which other definitions it names, and all that comes with a name.

A name is looked for as the files themselves do: among the definitions of its file, and among the names that its file imports. A
variable hides a definition of the same name, in the equation that binds it. The kit's own definitions are read in the same way. Those of
its standard library, which the notation of docs/PROOFS.md explains, are not followed, and neither are proofs."""
import functools
import glob
import os
import re
import shutil
from typing import Dict, Iterator, List, NamedTuple, Optional, Set, Tuple

ROOT = os.path.dirname(os.path.dirname(os.path.realpath(__file__)))
KIT = os.path.dirname(os.path.dirname(os.path.realpath(shutil.which("rt") or "rt")))
WORD = re.compile(r"[^\W\d][\w'-]*(?:\.[\w'-]+)*")
TEXT = re.compile(r'"(?:[^"\\]|\\.)*"')
USE = re.compile(r"^\s*(?:ghost |pub )?use ([\w.]+?)(?:\.\{(.*)\})?(?: as ([\w']+))?;?$")
HEAD = re.compile(r"(?:(?:abbrev|unfoldable|opaque) )?(?:pub )?(?:(?:record|data) )?([^\W\d][\w'-]*)")
BINDERS = (re.compile(r"[({]([\w' -]+?) :"), re.compile(r"λ \(?([\w' -]+?)(?=[.:)] ?)"), re.compile(r"\blet ([\w'-]+)"))


class Name(NamedTuple):
    """A definition, or a type that code declares, by its file (from the root of the repository or of the kit) and its name there."""

    file: str
    name: str


class Definition(NamedTuple):
    """Its lines without comments and blank lines, and the constructors that it has."""

    lines: List[str]
    constructors: Set[str]


class Imports(NamedTuple):
    """What the names of other files mean in a file; and the files that it cites by a name for all of them."""

    names: Dict[str, Name]
    files: Dict[str, str]


# ---- files

def path_of(file: str) -> str:
    return file if os.path.isabs(file) else f"{ROOT}/{file}"


@functools.lru_cache(maxsize=None)
def text_of(file: str) -> str:
    with open(path_of(file), encoding="utf-8") as it:
        return it.read()


def folder_of(crate: str) -> Optional[str]:
    """The folder of a crate of the repository, or else of the kit."""
    for folder in (f"crates/{crate}", f"{KIT}/rattle/{crate}"):
        if os.path.isdir(f"{path_of(folder)}/src"):
            return folder
    return None


def is_of_kit(file: str) -> bool:
    return os.path.isabs(file)


def crate_of(file: str) -> str:
    """The crate of a file, by its name."""
    return re.search(r"(?:crates|rattle)/(\w+)/(?:src|specs)/", file).group(1)


def place_of(path: str) -> Optional[Tuple[str, Optional[str]]]:
    """The file that a path of a `use` leads to, and the type in it, where code declares that; `None` for the standard library."""
    of_code = re.fullmatch(r"Rattle\.(\w+)\.specs\.declared\.([\w.]+?)\.([A-Z]\w*)(?:\.\w+)*", path)
    of_specs = re.match(r"Rattle\.(\w+)\.specs\.([\w.]+)", path)
    crate = (of_code or of_specs).group(1) if of_code or of_specs else "std"
    folder = None if crate.startswith("std") else folder_of(crate)
    if folder is None:
        return None
    if of_code:
        return f"{folder}/src/{of_code.group(2).replace('.', '/')}.rt", of_code.group(3)
    parts = of_specs.group(2).split(".")
    for some in range(len(parts), 0, -1):
        file = f"{folder}/specs/{'/'.join(parts[:some])}.antt"
        if os.path.exists(path_of(file)):
            return file, None
    return None


# ---- definitions

def is_definition_line(line: str) -> bool:
    return bool(line.strip()) and not line.lstrip().startswith("--") and not line.startswith(("use ", "pub use ", "infix"))


def heads_of(lines: List[str]) -> Iterator[Tuple[int, str]]:
    """The index of the first line of each definition, and its name. Those of `mutual` and of a module with parameters are indented."""
    indent = ""
    for index, line in enumerate(lines):
        if re.match(r"(?:abbrev |unfoldable )?mutual$|module ", line):
            indent = "  "
        elif not line.startswith(" "):
            indent = ""
        rest = line[len(indent) :]
        is_first = line.startswith(indent) and re.match(r"(?:abbrev|unfoldable|opaque|pub|record|data) ", rest)
        head = HEAD.match(rest) if is_first and not rest.startswith(("pub mod ", "abbrev mutual")) else None
        if head:
            yield index, head.group(1)


def constructors_of(lines: List[str]) -> Set[str]:
    if not re.match(r"\s*pub data|\s*data", lines[0]):
        return set()
    return {found.group(1) for line in lines[1:] for found in [re.match(r"\s+([^\W\d][\w'-]*) :", line)] if found}


@functools.lru_cache(maxsize=None)
def definitions_of(file: str) -> Dict[str, Definition]:
    """The definitions of a file, by their names."""
    lines = [it for it in text_of(file).splitlines() if is_definition_line(it)]
    heads = [*heads_of(lines), (len(lines), "")]
    parts = {name: lines[first:after] for (first, name), (after, _) in zip(heads, heads[1:])}
    return {name: Definition(part, constructors_of(part)) for name, part in parts.items()}


@functools.lru_cache(maxsize=None)
def constructors_in(file: str) -> Dict[str, str]:
    """Each constructor of a file, with the type that it is one of."""
    return {it: name for name, definition in definitions_of(file).items() for it in definition.constructors}


@functools.lru_cache(maxsize=None)
def imports_of(file: str) -> Imports:
    names: Dict[str, Name] = {}
    files: Dict[str, str] = {}
    for line in text_of(file).splitlines():
        used = USE.match(line)
        place = place_of(used.group(1)) if used else None
        if place is None:
            continue
        target, declared = place
        for it in filter(None, re.split(r",\s*", used.group(2) or "")):
            original, _, name = it.partition(" as ")
            names[name or original] = Name(target, declared or original)
        if used.group(2) is None:
            alias = used.group(3) or used.group(1).rpartition(".")[2]
            files[alias] = target
            if declared:
                names[alias] = Name(target, declared)
    return Imports(names, files)


# ---- what is named

def is_pattern_name(name: Optional[Name]) -> bool:
    """Whether a pattern may have it: a constructor, or what code declares."""
    return name is not None and (name.file.endswith(".rt") or name.name in constructors_in(name.file))


def meaning_of(file: str, word: str) -> Optional[Name]:
    """What a word means in a file of definitions or of code."""
    head, _, rest = word.partition(".")
    imports = imports_of(file)
    if head in imports.names:
        return imports.names[head]
    if head in imports.files and rest:
        return Name(imports.files[head], rest.partition(".")[0])
    is_local = file.endswith(".antt") and (head in definitions_of(file) or head in constructors_in(file))
    return Name(file, head) if is_local else None


def owner_of(name: Name) -> Optional[Name]:
    """The definition that has the name: of a constructor its type, and of a name that a file passes on that of the other file."""
    if name.file.endswith(".rt"):
        return name if declaration_of(name) else types_in(crate_of(name.file)).get(name.name)
    if name.name in definitions_of(name.file):
        return name
    if name.name in constructors_in(name.file):
        return Name(name.file, constructors_in(name.file)[name.name])
    passed_on = imports_of(name.file).names.get(name.name)
    return owner_of(passed_on) if passed_on else None


def words_of(text: str) -> List[str]:
    """The words of a piece of a definition that may be names, without fields of records."""
    text = re.sub(r"(?m)^\s+pub [\w'-]+ :", " :", TEXT.sub('""', text))
    text = re.sub(r"[\w'-]+ =(?!=)", "=", text)
    return [it.group() for it in WORD.finditer(text) if text[: it.start()][-1:] != "."]


def bound_in(text: str) -> Set[str]:
    return {it for binder in BINDERS for names in binder.findall(text) for it in names.split()}


def equations_of(name: str, lines: List[str]) -> List[str]:
    """The type of a definition, and each of its equations."""
    indent = re.match(r"\s*", lines[0]).group()
    parts = [[lines[0]]]
    for line in lines[1:]:
        if re.match(rf"{indent}{re.escape(name)}(?:\s|$)", line):
            parts.append([])
        parts[-1].append(line)
    return ["\n".join(it) for it in parts]


def split_equation(text: str) -> Tuple[str, str]:
    """What is left of its first `=`, and what is right of it."""
    found = re.search(r"\s=(?=\s|$)", text)
    return (text[: found.start()], text[found.end() :]) if found else ("", text)


def named_in(file: str, text: str, hidden: Set[str]) -> Set[Name]:
    meant = {meaning_of(file, it) for it in words_of(text) if it.partition(".")[0] not in hidden}
    return {it for it in meant if it}


def named_by_definition(file: str, name: str) -> Set[Name]:
    lines = definitions_of(file)[name].lines
    fields = {it.group(1) for line in lines for it in [re.match(r"\s+pub ([\w'-]+) :", line)] if it}
    type_text, *equations = equations_of(name, lines)
    found = named_in(file, type_text, bound_in(type_text) | fields)
    for equation in equations:
        left, right = split_equation(equation)
        patterns = {it: meaning_of(file, it) for it in words_of(left)}
        found |= {it for it in patterns.values() if is_pattern_name(it)}
        hidden = {it for it, meant in patterns.items() if not is_pattern_name(meant)} | bound_in(equation)
        found |= named_in(file, right, hidden)
    return found - {Name(file, name)}


# ---- types that code declares

@functools.lru_cache(maxsize=None)
def declaration_of(name: Name) -> List[str]:
    """The lines of a type that code declares, without comments and attributes; none where it isn't found."""
    lines = text_of(name.file).splitlines() if os.path.exists(path_of(name.file)) else []
    for index, line in enumerate(lines):
        if re.match(rf"(?:pub(?:\(crate\))? )?(?:struct|enum|type) {name.name}\b", line):
            after = index + 1
            while not re.search(r"[;}]$", lines[after - 1]) or lines[after - 1].startswith(" "):
                after += 1
            return [it for it in lines[index:after] if it.strip() and not it.lstrip().startswith(("//", "#["))]
    return []


@functools.lru_cache(maxsize=None)
def types_in(crate: str) -> Dict[str, Name]:
    """The types that the code of a crate declares."""
    folder = folder_of(crate)
    found = {}
    for path in sorted(glob.glob(f"{path_of(folder)}/src/**/*.rt", recursive=True)) if folder else []:
        file = path if is_of_kit(folder) else os.path.relpath(path, ROOT)
        for it in re.findall(r"(?m)^pub(?:\(crate\))? (?:struct|enum|type) (\w+)", text_of(file)):
            found.setdefault(it, Name(file, it))
    return found


def named_by_type(name: Name) -> Set[Name]:
    """The types of the same code, and of the crates that it uses, that a declaration has as the types of its fields."""
    text = text_of(name.file)
    crates = [crate_of(name.file), *re.findall(r"(?m)^use (\w+)::", text)]
    known = {it: found for crate in reversed(crates) for it, found in types_in(crate).items()}
    imported = set(re.findall(r"\w+", " ".join(re.findall(r"(?m)^use [^;]+;", text))))
    here = {it for it, found in types_in(crates[0]).items() if found.file == name.file} | imported
    fields = re.findall(r"(?<=[:(<, &])\s*([A-Z]\w*)", " ".join(declaration_of(name)))
    return {known[it] for it in fields if it in known and it in here and it != name.name}


# ---- what comes with a name

def named_by(name: Name) -> Set[Name]:
    return named_by_type(name) if name.file.endswith(".rt") else named_by_definition(name.file, name.name)


def lines_of_name(name: Name) -> int:
    if name.file.endswith(".rt"):
        return len(declaration_of(name))
    return len(definitions_of(name.file)[name.name].lines)


def reached_from(names: Set[Name]) -> Dict[Name, int]:
    """All definitions and declared types that these name, and those that these name, and so on, with the lines of each."""
    found: Dict[Name, int] = {}
    left = [*names]
    while left:
        it = owner_of(left.pop())
        if it is not None and it not in found:
            found[it] = lines_of_name(it)
            left += named_by(it)
    return found

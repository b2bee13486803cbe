"""Cases of tests/check about the documents: no sentence is too long, each link leads somewhere, README is short, and what it shows and
counts is so; about documents and comments: their words are plain; and about definitions and proofs: no line is too wide.

    tests/prose.py    prints each sentence that is too long, and each word that isn't plain, with its file and line; and how often each
                      document has each pattern that stops a reader"""
import ast
import glob
import io
import os
import re
import tokenize

import believed
from cases import case, equal, holds
from running import ROOT, stored

MOST_WORDS = 40
MOST_COLUMNS = 132
README_LINES = 134
MOST_LINES = 600
BEGINS_A_BLOCK = re.compile(r"^\s*(#+|[-*]|\d+\.)\s")
# Words that stop a reader: a program or a value prints, reports, says or shows; it is, lies or holds, and represents or means.
NOT_PLAIN = re.compile(r"(?i)\b(tell|tells|telling|told|stands|stood|but for)\b")
# Patterns that stop a native reader. Plainer are: if or when; after; returns; reaches; pending, must be; a waiting task,
# a woken task; two sentences; likewise; active; forever or without a limit; during, unsuccessfully, usually. "where" is also for places.
PATTERNS = {name: re.compile(rf"(?i)\b(?:{form})\b") for name, form in (
    ("where", "where"), ("behind", "behind"), ("answers", "answer(?:s|ed)"), ("comes to", "(?:comes?|came) to"),
    ("is to be", "(?:is|are) to be|still to come"), ("who waits", "who(?:ever)? (?:waits?|is|are|was|were|sleeps?)|(?:those|all|somebody) who"),
    ("of which", "of which|of whom"), ("so it is", "so (?:it )?(?:is|does) (?:it|with|in|of)"), ("in force", "in force"), ("for ever", "for ever"),
    ("whom", "whom(?:ever)?"), ("amid", "amid|in vain|mostly"), ("instead", "instead of .{0,200}because"),
)}
# How often a page has a pattern; what isn't named here it never has.
REACHED = {
    "CHANGELOG.md": {"where": 1},
    "docs/ADDING_AN_OP.md": {"where": 2},
    "docs/ARCHITECTURE.md": {"where": 1, "answers": 1},
    "docs/CI.md": {"where": 1},
    "docs/DRIVERS.md": {"where": 1, "answers": 1},
    "docs/EXPLORING.md": {"where": 1},
    "docs/FORMATS.md": {"where": 2, "answers": 1},
    "docs/FROM_C.md": {"where": 2},
    "docs/GLOSSARY.md": {"where": 8},
    "docs/KERNEL.md": {"where": 8},
    "docs/PACKAGE.md": {"where": 2},
    "docs/PROOFS.md": {"where": 3},
    "docs/REPORTS.md": {"where": 3},
    "docs/USING.md": {"where": 1},
    "docs/architecture/campaigns.md": {"where": 1},
    "docs/architecture/contracts.md": {"where": 1},
    "docs/architecture/kernel.md": {"where": 1},
    "docs/architecture/reference_kernel.md": {"answers": 1},
    "docs/decisions/campaigns.md": {"where": 2},
    "docs/decisions/fast_steps.md": {"where": 2},
    "docs/decisions/file_check.md": {"where": 1},
    "docs/decisions/files.md": {"where": 1},
    "docs/decisions/kernel_code.md": {"where": 1},
    "docs/decisions/launcher.md": {"where": 1, "behind": 1},
    "docs/decisions/reports.md": {"where": 1},
    "docs/decisions/text_of_lines.md": {"where": 1},
    "docs/decisions/translator.md": {"behind": 1},
    "docs/kernel/objects.md": {"where": 1},
    "docs/kernel/tasks.md": {"where": 1},
    "docs/proofs/definitions.md": {"where": 5, "answers": 1},
    "docs/proofs/promises.md": {"where": 1, "answers": 1},
    "docs/proofs/reading.md": {"where": 1, "answers": 1},
    "docs/proofs/wrong_bodies.md": {"answers": 1},
}
# The same of the comments of a crate's code and definitions.
REACHED_BY_COMMENTS = {
    "model": {"where": 8, "behind": 2, "answers": 2, "comes to": 2, "is to be": 1, "who waits": 6, "of which": 2, "in force": 2, "whom": 1},
    "lists": {"where": 1}, "task_lists": {}, "groups": {}, "sched": {}, "objects": {}, "machine": {}, "ops": {},
    "integration_tests": {"where": 1}, "unit_tests": {}, "allocation_failures": {}, "reference_kernel": {}, "random_apps": {},
    "differential_tests": {}, "soundness": {}, "laws": {},
    "kernel": {"where": 9, "behind": 5, "answers": 1, "comes to": 12, "is to be": 1, "who waits": 2, "of which": 3, "in force": 8},
    "clock": {"where": 2, "is to be": 2, "who waits": 2, "of which": 1, "whom": 2},
    "byte_io": {"where": 4, "of which": 1}, "shelf": {"where": 4}, "explorer": {"where": 4}, "rows": {"where": 12, "behind": 1, "of which": 1},
    "report": {"where": 3, "of which": 4}, "grammar": {"where": 1}, "script": {"where": 6}, "requests": {"of which": 1},
    "deal": {"of which": 2}, "campaign": {"where": 6, "of which": 1}, "jobs": {}, "rtosim": {"is to be": 1},
}
# The same of the comments, and of the first texts of files, classes and functions, of folders in Python.
REACHED_BY_PYTHON = {"bin": {"where": 1}, "tools/rtosim_report": {"where": 6, "answers": 3, "who waits": 1, "of which": 6},
                     "tools/rtosim_from_c": {"where": 24, "answers": 32, "of which": 3}}
# How long an answer takes that isn't proved, wherever it is said.
PREVIEWED = re.compile(r"(?i)\b(?:in|within|takes|under|than) (?:a|one|two|three) minutes?\b(?: or two)?")
# Crates in whose proofs no comment has a pattern.
PLAIN_PROOFS = ("model", "lists", "task_lists", "groups", "sched", "objects", "machine", "ops")
STRING = re.compile(r'"(?:[^"\\]|\\.)*"')
LINK = re.compile(r"\[[^]]*\]\(([^)\s]+)\)")
# A stop, perhaps with what closes a bracket, a quotation or an emphasis, and a word that may begin a sentence.
BETWEEN_SENTENCES = re.compile(r"(?<=[.?!])[)\"*]*\s+(?=[\"(*`\[A-Z0-9])")


def documents():
    return ["README.md", "CHANGELOG.md", *sorted(os.path.relpath(it, ROOT) for it in glob.glob(f"{ROOT}/docs/**/*.md", recursive=True))]


def text_of(name):
    return stored(name).decode()


def prose_lines(text):
    """The number and the text of each line, empty where it is of a program: between fences, or indented behind an empty line."""
    is_fenced = is_in_list = is_program = False
    is_after_empty = True
    for number, line in enumerate(text.splitlines(), 1):
        is_fence = line.lstrip().startswith("```")
        is_fenced ^= is_fence
        indented = " " * (6 if is_in_list else 4)
        is_program = line.startswith(indented) and (is_program or is_after_empty) or is_program and not line
        if BEGINS_A_BLOCK.match(line) and not is_program:
            is_in_list = not line.startswith("#")
        elif line and not line.startswith(" "):
            is_in_list = False
        is_after_empty = not line
        yield number, "" if is_fenced or is_fence or is_program else line


def blocks(text):
    """Each paragraph, heading, item of a list and cell of a table, with the number of its first line."""
    first, block = 0, []
    for number, line in [*prose_lines(text), (0, "")]:
        is_row = line.startswith("|")
        if block and (is_row or not line.strip() or BEGINS_A_BLOCK.match(line)):
            yield first, " ".join(block)
            block = []
        if is_row:
            yield from ((number, cell) for cell in re.split(r"(?<!\\)\|", line))
        elif line.strip():
            first = first if block else number
            block.append(BEGINS_A_BLOCK.sub("", line, count=1).strip())


def sentences(block):
    """Its sentences, with one word in the place of each piece of code and of each link's address."""
    plain = re.sub(r"\]\([^)]*\)", "]", re.sub(r"`[^`]*`", "`CODE`", block))
    return BETWEEN_SENTENCES.split(plain)


def words(sentence):
    return sum(1 for it in sentence.split() if re.search(r"\w", it))


def long_sentences(text):
    return [(line, it) for line, block in blocks(text) for it in sentences(block) if words(it) > MOST_WORDS]


def comments(text, mark):
    """The number and the text of each line's comment, which begins with this mark."""
    for number, line in enumerate(text.splitlines(), 1):
        _, _, comment = STRING.sub('""', line).partition(mark)
        yield number, comment


def commented():
    """Each file of code and of definitions by its name, with its comments."""
    for form, mark in (("crates/*/src/**/*.rt", "//"), ("crates/*/specs/**/*.antt", "--")):
        for path in sorted(glob.glob(f"{ROOT}/{form}", recursive=True)):
            name = os.path.relpath(path, ROOT)
            yield name, comments(text_of(name), mark)


def words_not_plain(lines):
    return [(number, it[0]) for number, line in lines for it in NOT_PLAIN.finditer(re.sub(r"`[^`]*`", "", line))]


def places_not_plain():
    texts = [*((name, prose_lines(text_of(name))) for name in documents()), *commented()]
    return [f"{name}:{line}: {word}" for name, lines in texts for line, word in words_not_plain(lines)]


def comments_of(crate):
    """All comments of a crate's code and definitions."""
    return "\n".join(line for name, lines in commented() if name.startswith(f"crates/{crate}/") for _, line in lines)


def said_in_python(text):
    """The comments of a file in Python, and the texts with which it, its classes and its functions begin."""
    said = [it.string for it in tokenize.generate_tokens(io.StringIO(text).readline) if it.type == tokenize.COMMENT]
    nodes = [it for it in ast.walk(ast.parse(text)) if isinstance(it, (ast.Module, ast.ClassDef, ast.FunctionDef))]
    return "\n".join([*said, *filter(None, map(ast.get_docstring, nodes))])


def said_in_folder(folder):
    names = sorted(os.path.relpath(it, ROOT) for it in glob.glob(f"{ROOT}/{folder}/*") if os.path.isfile(it))
    texts = [text_of(it) for it in names]
    return "\n".join(said_in_python(text) for name, text in zip(names, texts) if name.endswith(".py") or re.match("#!.*python3", text))


def patterns_in(text):
    """How often prose has each pattern that it has; code and the addresses of links don't count."""
    return patterns_of("\n".join(line for _, line in prose_lines(text)))


def patterns_of(lines):
    plain = re.sub(r"`[^`]*`|\]\([^)]*\)", "", lines)
    counted = {name: len(form.findall(plain)) for name, form in PATTERNS.items()}
    return {name: number for name, number in counted.items() if number}


def anchors(text):
    """Where a link into a document may lead: to its headings, in the form in which hosts of repositories name them."""
    headings = (line.lstrip("# ") for _, line in prose_lines(text) if line.startswith("#"))
    return {re.sub(r"[^\w -]", "", it.lower()).replace(" ", "-") for it in headings}


def fenced(text, kind):
    return re.findall(rf"(?m)^```{kind}\n((?:.*\n)*?)```$", text)


@case
def no_sentence_of_a_document_has_more_than_40_words():
    equal([f"{name}:{line}: {it}" for name in documents() for line, it in long_sentences(text_of(name))], [])


@case
def each_row_of_what_was_reached_is_of_a_document():
    equal(sorted(set(REACHED) - set(documents())), [])


@case
def sentences_are_counted_by_their_words():
    is_long = "word " * 40 + "word."
    equal([line for line, _ in long_sentences(f"A\n\n{is_long}\n")], [3])
    equal([line for line, _ in long_sentences(f"- a\n- b\n  {is_long}\n\n| a | {is_long} |\n")], [2, 5])
    equal(long_sentences(f"{'word ' * 20}`a b`. {'Word ' * 20}\n\n    {is_long}\n\n```\n{is_long}\n```\n"), [])


@case
def documents_and_comments_have_plain_words():
    equal(places_not_plain(), [])


@case
def documents_in_plain_english_stay_so():
    for name in documents():
        reached = REACHED.get(name, {})
        more = {it: number for it, number in patterns_in(text_of(name)).items() if number > reached.get(it, 0)}
        equal((name, more), (name, {}))


@case
def comments_in_plain_english_stay_so():
    for crate, reached in REACHED_BY_COMMENTS.items():
        assert os.path.isdir(f"{ROOT}/crates/{crate}/src"), crate
        more = {it: number for it, number in patterns_of(comments_of(crate)).items() if number > reached.get(it, 0)}
        equal((crate, more), (crate, {}))


@case
def comments_of_proofs_in_plain_english_stay_so():
    for crate in PLAIN_PROOFS:
        names = sorted(os.path.relpath(it, ROOT) for it in glob.glob(f"{ROOT}/crates/{crate}/proofs/**/*.antt", recursive=True))
        assert names, crate
        equal([(it, found) for it in names for found in [patterns_of("\n".join(line for _, line in comments(text_of(it), "--")))] if found], [])


@case
def comments_of_python_in_plain_english_stay_so():
    for folder, reached in REACHED_BY_PYTHON.items():
        said = said_in_folder(folder)
        assert len(said) > 1000, folder
        more = {it: number for it, number in patterns_of(said).items() if number > reached.get(it, 0)}
        equal((folder, more), (folder, {}))


@case
def what_is_said_in_python_is_its_comments_and_first_texts():
    text = '"""One."""\nword = "where"  # two\n\ndef three():\n    """Three\n    four."""\n    return "behind"\n'
    equal(said_in_python(text), "# two\nOne.\nThree\nfour.")


@case
def patterns_are_counted_in_prose():
    equal(patterns_in("It waits for ever. Who waits\nis behind `those who wait`.\n\n    where\n"), {"behind": 1, "who waits": 1, "for ever": 1})
    equal(patterns_in("[If](A.md#where-it-is) it answers, where it is."), {"where": 1, "answers": 1})


@case
def no_line_of_a_definition_or_a_proof_has_more_than_132_columns():
    names = sorted(os.path.relpath(it, ROOT) for kind in ("specs", "proofs") for it in glob.glob(f"{ROOT}/crates/*/{kind}/**/*.antt", recursive=True))
    assert len(names) > 900, f"{len(names)} files"
    equal([f"{name}:{number}" for name in names for number, line in enumerate(text_of(name).splitlines(), 1) if len(line) > MOST_COLUMNS], [])


@case
def words_are_looked_for_in_comments_and_not_in_code():
    text = 'let told = "// stood"; // is told by `tells`\n// It stands\nfn tell() {} // no event\n'
    equal(words_not_plain(comments(text, "//")), [(1, "told"), (2, "stands")])


@case
def each_link_of_a_document_leads_somewhere():
    lost = []
    for name in documents():
        for link in LINK.findall("\n".join(line for _, line in prose_lines(text_of(name)))):
            file, _, anchor = link.partition("#")
            path = os.path.normpath(os.path.join(os.path.dirname(name), file)) if file else name
            is_there = link.startswith("https://") or os.path.exists(f"{ROOT}/{path}")
            if not is_there or anchor and anchor not in anchors(text_of(path)):
                lost.append(f"{name}: {link}")
    equal(lost, [])


@case
def readme_is_short_and_says_the_kits_logic_once():
    readme = text_of("README.md")
    assert readme.count("\n") <= README_LINES, readme.count("\n")
    equal([name for name in documents() for _ in re.findall(r"logic [0-9a-f]{16}\b|rattle-kit-", text_of(name))], ["README.md"])


@case
def no_document_has_more_than_600_lines():
    lines = {name: text_of(name).count("\n") for name in documents()}
    equal({name: number for name, number in lines.items() if number > MOST_LINES}, {})


@case
def readme_says_what_it_takes_before_anything_else():
    first = text_of("README.md").partition("\n## ")[0]
    for part in ("a model of your driver, and not your C", "[translate](docs/FROM_C.md)", "`rt`, the compiler and prover of the Rattle toolchain",
                 "or a [package](docs/PACKAGE.md)"):
        holds(first, part)


@case
def a_preview_is_said_to_take_a_minute_or_two():
    names = ["README.md", "docs/USING.md", "docs/decisions/launcher.md", "bin/build", "bin/preview", "tools/first_answer.py"]
    said = [(name, it) for name in names for it in PREVIEWED.findall(re.sub(r"\s+", " ", text_of(name)))]
    equal([name for name in names if name not in {it for it, _ in said}], [])
    equal([it for it in said if not it[1].endswith(" a minute or two")], [])


@case
def readme_shows_the_example_and_its_report():
    readme = text_of("README.md")
    plain = lambda toml: re.sub(r",(?=\])", "", re.sub(r"(?m)^#.*|\s", "", toml))
    equal([plain(it) for it in fenced(readme, "toml")], [plain(text_of("examples/lost_wake_up.toml"))])
    shown = next(it for it in fenced(readme, "") if it.startswith("$ bin/rtosim campaign"))
    reports = re.findall(r"(?m)^\$ bin/rtosim campaign (.*)\.toml\n((?:[^$].*\n)*)", shown)
    equal([name for name, _ in reports], ["examples/lost_wake_up", "examples/lost_wake_up_cured"])
    for name, text in reports:
        report, lines = text_of(f"{name}.report"), text.splitlines(True)
        holds(report, "".join(lines[:-1]))
        assert report.endswith(lines[-1]), lines[-1]


@case
def readme_shows_lines_of_a_driver_in_c():
    shown = [it.partition("  ") for it in "".join(fenced(text_of("README.md"), "c")).splitlines()]
    driver = text_of("examples/c/shared_bus.c").splitlines()
    equal([(number, driver[int(number) - 1]) for number, _, _ in shown], [(number, line) for number, _, line in shown])
    assert len(shown) > 3, shown


@case
def the_definitions_to_begin_with_are_short():
    readme = text_of("README.md")
    first = ("Switching", "Time", "Objects", "Calls", "Step", "Run")
    holds(readme, ", ".join(first))
    lines = sum(believed.lines_of(f"crates/model/specs/{it}.antt") for it in first)
    assert lines < 360, lines


if __name__ == "__main__":
    for name in documents():
        for line, it in long_sentences(text_of(name)):
            print(f"{name}:{line}: {words(it)} words: {it}")
    for it in places_not_plain():
        print(it)
    for name in documents():
        print(f"{name}: {', '.join(f'{it} {number}' for it, number in patterns_in(text_of(name)).items())}")

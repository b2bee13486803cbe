"""Cases of tests/check about docs/RELIABILITY.md: it has as many wrong bodies, random applications and stored outputs as there are."""
import glob
import os
import re
from typing import List

from cases import case
from claims import is_near
from prose import text_of
from running import ROOT, refused_texts

DIFFERENTIAL_TESTS = "crates/differential_tests/src"


def said_of(what: str) -> str:
    """The first number of the row about this."""
    rows = re.findall(rf"(?m)^\| [^|]*{what}[^|]*\| ([\d,]*\d)", text_of("docs/RELIABILITY.md"))
    assert rows, f"no row is about {what}"
    return rows[0]


def names(form: str) -> List[str]:
    """The files of this form, by their paths from ROOT."""
    return [os.path.relpath(it, ROOT) for it in glob.glob(f"{ROOT}/{form}", recursive=True)]


def refused() -> int:
    return sum(len(list(refused_texts(it))) for it in names("tests/refused/*.faults"))


def mistakes() -> int:
    return sum(len(re.findall("(?m)^## ", text_of(it))) for it in names("tests/mistakes/*.mistakes"))


def random_applications() -> int:
    """Of each test that compares the kernel with the reference kernel, as many as it has seeds."""
    text = text_of(f"{DIFFERENTIAL_TESTS}/random.rt")
    seeds = re.search(r"fn seen_in\(.*?for seed in 0\.\.([\d_]+)", text, re.DOTALL)[1]
    return int(seeds.replace("_", "")) * text.count("= seen_in(")


def rows_of_campaigns() -> int:
    return int(re.search(r"seen\.rows == ([\d_]+)", text_of(f"{DIFFERENTIAL_TESTS}/campaigns.rt"))[1].replace("_", ""))


def tests_of_crates() -> int:
    return sum(text_of(it).count("#[test]") for it in names("crates/*/src/**/*.rt"))


@case
def how_it_is_tested_has_the_numbers_of_what_there_is():
    outputs = (f"{top}/**/*.{kind}" for top in ("tests/runs", "examples") for kind in ("out", "report"))
    for what, counted in (
        ("wrong bodies", len(names("crates/*/must-fail/*.edit") + names("crates/*/wrong-bodies/*.edit"))),
        ("random applications", random_applications()),
        ("rows of random campaigns", rows_of_campaigns()),
        ("stored outputs", sum(len(names(it)) for it in outputs)),
        ("files that are refused", refused()),
        ("mistakes in files", mistakes()),
        ("tests of the crates", tests_of_crates()),
    ):
        assert is_near(said_of(what), counted), f"{what}: {said_of(what)} is said, {counted} are counted"

"""Cases of tests/check about the schema for editors, docs/application.schema.json."""
import glob
import json
import os
import re

from applications import Applications
from cases import case, equal
from checked import mistakes, plain, skipped
from running import ROOT, refused_texts, stored
from validator import problems

from rtosim_check import schema
from rtosim_check.toml_reader import read_document

SCHEMA = "docs/application.schema.json"


def of_schema(text):
    """What the schema says against an application."""
    return problems(json.loads(stored(SCHEMA)), plain(read_document(text)))


@case
def the_schema_is_that_of_the_tables():
    equal(stored(SCHEMA).decode(), schema.text())


@case
def the_schema_takes_what_the_program_takes():
    count = 0
    for path in [it for top in ("examples", "tests/runs", "bench") for it in glob.glob(f"{ROOT}/{top}/**/*.toml", recursive=True)]:
        if top_of(path) == "bench" or os.path.exists(path[:-5] + ".out") or os.path.exists(path[:-5] + ".report"):
            count += 1
            equal((path, of_schema(stored(os.path.relpath(path, ROOT)).decode())), (path, []))
    assert count > 100, count
    for seed in range(200):
        equal(of_schema(Applications(seed).text()), [])


def top_of(path):
    return os.path.relpath(path, ROOT).split("/")[0]


# What the schema doesn't say. To it 1.0 is an integer; `initial` is compared with no `max`; objects of several sections aren't
# counted together, nor interrupts of one tick, nor the daemon with the tasks; nor are the steps of a point compared.
NOT_IN_SCHEMA = re.compile(
    r"= 1\.0|initial = 3|'[0-9]+ \w+ [0-9]+ \w+( [0-9]+ \w+)?'|from 2 to 1'|^(Unknown|Double)Name|^BadNesting|^OverwriteLength|^NoDaemon"
    r"|^TooMany: (interrupt 4|mutex|counting|binary|daemon)"
)


@case
def the_schema_refuses_what_it_can():
    counts = {True: 0, False: 0}
    for path in sorted(glob.glob(f"{ROOT}/tests/refused/*.faults")):
        for text, fault in refused_texts(os.path.relpath(path, ROOT)):
            kind = fault.partition(" ")[2]
            if fault == "not TOML":
                continue
            is_refused = bool(of_schema(text))
            counts[is_refused] += 1
            assert is_refused or NOT_IN_SCHEMA.search(kind) or NOT_IN_SCHEMA.search(text), (fault, text)
    assert counts[True] > 150 and counts[False] > 30, counts
    for name, text, wanted in mistakes():
        if re.search("is ignored|no key is called|no section is called", wanted):
            assert of_schema(text), name


@case
def the_schema_is_one():
    try:
        import jsonschema
    except ImportError:
        return skipped("there is no python3-jsonschema")
    whole = json.loads(stored(SCHEMA))
    jsonschema.Draft7Validator.check_schema(whole)
    validator = jsonschema.Draft7Validator(whole)
    for _, text, wanted in mistakes():
        if "rtosim: not TOML" not in wanted:
            value = plain(read_document(text))
            equal((text, validator.is_valid(value)), (text, not problems(whole, value)))

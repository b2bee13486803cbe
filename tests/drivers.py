"""Cases of tests/program about the drivers of examples/drivers: as many rows fail as docs/DRIVERS.md says, none when a driver is mended as it
says, and more when its interrupt comes at any moment."""
import re

from cases import case, equal
from running import campaign_text, run, stored, ROOT

QUEUED_FRAMES = [('"overwrite mailbox 1"', '"send mailbox 1"'), ('"overwrite mailbox 2", "give ready"', '"send mailbox 2", "expect 1", "give ready"')]
# What has an interrupt come at any moment.
UNARMED = [("armed = false\n", ""), ('    "arm i2c",\n', ""), ('"disarm i2c", ', "")]
# The name of a driver, what is edited, and how many rows fail then.
MENDED = (
    ("button", [('"delay 5"', '"delay 5", "take pressed 0"')], 0),
    ("watchdog", [("delay_until 6", "delay_until 10")], 0),
    ("pool", [('"send filled 1", "end"', '"send filled 1", "if 0", "send free 1", "end", "end"')], 0),
    ("pool", [('name = "filled"\nlength = 1', 'name = "filled"\nlength = 2')], 0),
    ("dma_halves", [
        ('name = "half"\nlength = 1', 'name = "half"\nlength = 2'), ('"overwrite half 0", "give full"', '"send half 0", "expect 1"'),
        ('"overwrite half 1", "give full"', '"send half 1", "expect 1"'), ('"take full forever",\n    "peek half 0"', '"receive half forever"'),
    ], 0),
    ("i2c_transfer", [('"break",\n    "end",\n', '"break",\n    "end",\n    "disarm i2c", "cancel i2c", "receive done 0",\n')], 0),
    ("i2c_transfer", UNARMED, 18),
    ("i2c_transfer_cured", [*UNARMED, ('    "disarm i2c",\n', "")], 17),
    ("uart_bytes", [("length = 2", "length = 3")], 0),
    ("uart_bytes", [("work 4", "work 3")], 0),
    ("uart_bytes", [("apart = 2\n", "")], 2),
    ("can_mailbox", QUEUED_FRAMES, 4),
    ("can_mailbox", [*QUEUED_FRAMES, ("length = 1", "length = 3"), ('"take ready forever",\n    "receive mailbox 0"', '"receive mailbox forever"')], 0),
)


def failing(report):
    """How many rows fail, of how many, as the line of totals has it."""
    rows, passes = map(int, re.search(rb"total (\d+): pass (\d+),", report).groups())
    return rows - passes, rows


@case
def as_many_rows_of_each_driver_fail_as_the_documents_say():
    table = re.findall(r"\| \[[^]]+\]\(#[^)]+\) \| .* \| (\d+) of (\d+) \|", stored("docs/DRIVERS.md").decode())
    names = re.findall(r"--application (examples/\S+\.toml)", stored("docs/DRIVERS.md").decode())
    equal((len(table), len(names)), (11, 11))
    for name, (fail, rows) in zip(names, table):
        equal((name, failing(run("campaign", f"{ROOT}/{name}", "--heads")[1])), (name, (int(fail), int(rows))))


@case
def each_driver_of_the_documents_has_its_c_its_toml_and_its_campaign():
    """What the documents show of an application are tables of its file, the last of them its campaign."""
    parts = re.split(r"(?m)^## ", stored("docs/DRIVERS.md").decode())[1:]
    for part in parts:
        title, file = part.partition("\n")[0], re.search(r"--application (examples/\S+\.toml)", part)[1]
        # (that of the slow line is the C of the UART before it)
        assert title == "UART bytes" or "```c\n" in part.partition("```toml\n")[0], title
        shown = re.search(r"(?s)```toml\n(.*?)```\n", part)[1]
        assert part.index("```toml\n") < part.index("\n$ bin/rtosim-report classes --failing "), title
        tables = re.split(r"(?m)^(?=\[)", shown)[1:]
        equal((title, tables[-1].partition("\n")[0], len(tables) > 1), (title, "[campaign]", True))
        for it in tables:
            assert f"\n{it}" in stored(file).decode() + "\n", (title, it)
    equal(len(parts), 11)


@case
def as_many_rows_of_an_edited_driver_fail():
    for name, edits, wanted in MENDED:
        text = stored(f"examples/drivers/{name}.toml").decode()
        for old, new in edits:
            assert old in text, (name, old)
            text = text.replace(old, new)
        equal((name, failing(campaign_text(text, "--heads")[1])[0]), (name, wanted))

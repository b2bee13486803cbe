"""Cases of tests/program: what `explore` finds, beside the sum of whole runs. Each placement is run by itself, as a row of a campaign."""
import re

from applications import Applications
from cases import case, equal
from running import PATIENCE, campaign_text, run, run_text, shown_on_a_terminal, stored, write
from stored import FILES

HEAD = re.compile(r"(?:base|row [0-9]+ at [^:]*): (.*) in ([0-9]+) steps, ([0-9]+) ticks")
TWO_HANDLERS = "tests/runs/placements/two_handlers_for_ten_thousand_steps.toml"
CAMPAIGN = re.compile(r"\[campaign\]\npoints = .*\n")
HANDLERS = re.compile(r'(?m)^\[\[handler\]\]\nname = "(.*)"')


def heads_of(text):
    """The verdict, the steps and the ticks of each head line."""
    found = [HEAD.fullmatch(it) for it in text.decode().splitlines()]
    return [(it[1], int(it[2]), int(it[3])) for it in found if it]


def words_of(placement, handlers):
    return " ".join(f"{step} {handlers[handler]}" for step, handler in placement)


def longer(ends, handlers):
    """The placements of one injection more than these: a handler before a step from the last injection's on, which the run gets to."""
    return [
        (*placement, (step, handler))
        for placement, (_, steps, _) in ends.items()
        for step in range(placement[-1][0] if placement else 0, steps)
        for handler in range(len(handlers))
    ]


def ends_by_runs(text, handlers, most):
    """How the run of each placement ends. Of an application without points, of whose injections none but the first may be one that
    can't come: the row of a point that begins with such a one isn't reached."""
    ends = {(): heads_of(run_text(text)[1])[0]}
    last = dict(ends)
    for _ in range(most):
        placements = longer(last, handlers)
        if not placements:
            break
        points = ", ".join(f'"{words_of(it, handlers)}"' for it in placements)
        rows = heads_of(campaign_text(f"{text}[campaign]\npoints = [{points}]\n", "--heads")[1])
        equal(len(rows), len(placements))
        last = {it: row for it, row in zip(placements, rows) if not row[0].startswith("not reached, ")}
        ends.update(last)
    return ends


def line_of(placements, ends, handlers):
    """What is written of an end that these have."""
    least = min(placements, key=lambda it: (len(it), it))
    verdict, steps, ticks = ends[least]
    number = f"{len(placements)} placement{'s' * (len(placements) != 1)}"
    return (len(least), least), f"{verdict}: {number}, least is {words_of(least, handlers) or 'none'} in {steps} steps, {ticks} ticks\n"


def report_of(ends, handlers):
    """The report of `explore` for placements that end so, and its status."""
    by_verdict = {}
    for placement, (verdict, _, _) in ends.items():
        by_verdict.setdefault(verdict, []).append(placement)
    lines = sorted(line_of(it, ends, handlers) for it in by_verdict.values())
    return int(set(by_verdict) != {"pass"}), "".join(it for _, it in lines) + f"total {len(ends)}\n"


def is_found(text, handlers, most, *words):
    """The program finds what the runs one by one come to."""
    status, report = report_of(ends_by_runs(text, handlers, most), handlers)
    write("application.toml", text)
    equal(run("explore", "application.toml", "--injections", str(most), *words), (status, report.encode(), b""))


def without_points(text, steps):
    return CAMPAIGN.sub("", text).replace("steps = 300", f"steps = {steps}")


@case
def one_injection_of_random_applications_beside_campaigns():
    for seed in range(64):
        is_found(without_points(Applications(seed).text(), 120), "hk", 1)


@case
def two_injections_of_random_applications_beside_pairs():
    for seed in range(64):
        is_found(without_points(Applications(seed).text(), 24), "hk", 2)


@case
def three_injections_of_random_applications_beside_triples():
    for seed in range(64):
        is_found(without_points(Applications(seed).text(), 10), "hk", 3)


@case
def one_handler_of_two_of_random_applications():
    for seed in range(16):
        is_found(without_points(Applications(seed).text(), 20), "k", 3, "--handlers", "k")


MARKED = re.compile(r"(?m)^ops = \[(?:(.))?")


def marked(text):
    """The application with handlers that mark when they come."""
    return MARKED.sub(lambda it: 'ops = ["mark 77"' + (f", {it[1]}" if it[1] != "]" else "]"), text)


def rows_of(text, points):
    """The rows of these points without their numbers and points, each its head and its lines."""
    report = campaign_text(f"{text}[campaign]\npoints = [{points}]\n")[1].decode()
    rows = [it for it in re.split(r"(?m)^(?=row |total )", report) if it.startswith("row ")]
    return [re.sub(r"^row \d+ at [^:]*: (?:not reached, )?", "", it) for it in rows]


def ends_of_those_that_come(text, handlers, most):
    """How the run of each placement ends, of an application without critical sections whose handlers mark when they come: an injection
    comes if the run differs from that without it."""
    base = run_text(text)[1].decode().replace("base: ", "", 1)
    ends, last, runs = {(): heads_of(run_text(text)[1])[0]}, {(): heads_of(run_text(text)[1])[0]}, {(): base}
    for _ in range(most):
        placements = longer(last, handlers)
        found = rows_of(text, ", ".join(f'"{words_of(it, handlers)}"' for it in placements)) if placements else []
        equal(len(found), len(placements))
        come = {it: row for it, row in zip(placements, found) if row != runs[it[:-1]]}
        last = {it: heads_of(f"base: {row}".encode())[0] for it, row in come.items()}
        runs.update(come)
        ends.update(last)
    return ends


@case
def injections_of_handlers_that_cannot_always_come_beside_runs():
    for most, steps, seeds in ((1, 120, 128), (2, 20, 128), (3, 9, 64)):
        count = 0
        for seed in range(128, 128 + seeds):
            # (those without critical sections)
            text = marked(without_points(Applications(seed).text(), steps))
            if seed % 32 > 15 or run_text(text)[0] > 1:
                continue
            status, report = report_of(ends_of_those_that_come(text, "hk", most), "hk")
            write("application.toml", text)
            equal((seed, run("explore", "application.toml", "--injections", str(most))), (seed, (status, report.encode(), b"")))
            count += 1
        assert count > 20, count


@case
def one_injection_of_handlers_that_are_armed_or_raised():
    found = [it for it in FILES if re.fullmatch(r"tests/runs/(arming|device)/.*\.toml", it)]
    assert len(found) > 15, len(found)
    for path in found:
        text = CAMPAIGN.sub("", stored(path).decode())
        is_found(text, HANDLERS.findall(text), 1)


@case
def long_runs_beside_campaigns():
    # (several blocks of steps, of each length)
    text = stored(TWO_HANDLERS).decode()
    is_found(text.replace("steps = 10000", "steps = 3000"), ["uart", "late"], 1)
    is_found(text.replace("steps = 10000", "steps = 150"), ["uart", "late"], 2)


@case
def exploring_shows_on_a_terminal_how_far_it_is():
    text = stored(TWO_HANDLERS).decode().replace("steps = 10000", "steps = 1000000")
    shown = shown_on_a_terminal(text, PATIENCE, "explore", "--injections", "3")
    assert re.fullmatch(rb"\r\x1b\[Krtosim: [1-9]\d* steps done, states kept: [1-9]\d*", shown), shown
    equal(shown_on_a_terminal(text.replace("steps = 1000000", "steps = 100"), PATIENCE, "explore"), b"")

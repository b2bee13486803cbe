"""When interrupts can come: the ends of the numbers of `apart` and `raise`, where their ops are allowed, and what comes before what."""
from cases import case, equal
from edges import EACH_KIND, LARGEST, TICKLESS, faults, is_taken, refuses_numbers, task, tells
from running import HANDLER, TASK, run_text

MARKS = '[[handler]]\nname = "h"\nops = ["mark 9"]\n'
OPS = ("disarm h", "arm h", "raise h 3", "cancel h")


def marks_of(text, point):
    """How often the handler comes in the run with this point."""
    return run_text(text, "--point", point)[1].decode().count("mark h 9")


@case
def edges_of_apart():
    for number in ("0", "1", "1000000", "+7", "1_000"):
        is_taken(f"{HANDLER}apart = {number}\n{TASK}")
    refuses_numbers(f"{HANDLER}apart = N\n{TASK}", "handler 0 apart", -1, 1_000_001, LARGEST, 2**63 - 1, -(2**63))
    refuses_numbers(f"{HANDLER}apart = N\n{TASK}", "handler 0 apart", "1.0", "true", "'1'", "[]", code="2 WrongKind")
    tickless = TICKLESS + MARKS + "apart = 1000000\n" + task("delay 999999", "delay 1", "time")
    for step, count in ((2, 1), (4, 2)):
        equal((step, marks_of(tickless, f"0 h {step} h")), (step, count))
    near = MARKS + "apart = 3\n" + task("work 4", "mark 1")
    equal([marks_of(near, f"0 h {step} h") for step in range(5)], [1, 1, 1, 2, 2])
    equal([marks_of(near, f"0 h 2 h {step} h") for step in (2, 3, 4)], [1, 2, 2])
    equal([marks_of(near.replace("3", "0"), f"0 h 0 h {step} h") for step in (0, 4)], [3, 3])


@case
def edges_of_armed():
    for word in ("true", "false"):
        is_taken(f"{HANDLER}armed = {word}\n{TASK}")
    refuses_numbers(f"{HANDLER}armed = N\n{TASK}", "handler 0 armed", 0, 1, "'true'", "1.5", "[]", "{}", code="2 WrongKind")
    # .. in the order of the checks
    faults(f'[[handler]]\nname = "h"\narmed = 0\napart = -1\n{TASK}', "1 Missing: handler 0 ops")
    faults(f"{HANDLER}apart = -1\narmed = 0\n{TASK}", "2 WrongKind: handler 0 armed")
    faults(f'{HANDLER}apart = -1\n[[handler]]\nname = "h"\nops = []\n{TASK}', "3 OutOfRange: handler 0 apart")
    # a key of a later version is still ignored
    is_taken(f"{HANDLER}wired = 7\n{TASK}")


@case
def edges_of_raise():
    for number in ("1", "1000000", "0000000001"):
        tells(HANDLER + task(f"raise h {number}"), "pass in 1 steps, 0 ticks", "0 0 run -")
        tells(HANDLER.replace("[]", f'["raise h {number}"]') + TASK, "pass in 1 steps, 0 ticks", "0 0 mark a 7", "0 0 run -")
    refuses_numbers(HANDLER + task("raise h N"), "task 0 script 0", 0, "00", 1_000_001, LARGEST, -1, "00000000001", code="4 BadOp")
    refuses_numbers(HANDLER.replace("[]", '["raise h N"]') + TASK, "handler 0 ops 0", 0, 1_000_001, LARGEST, -1, code="4 BadOp")
    tells(TICKLESS + MARKS + task("raise h 1000000", "delay 1000000", "time"), "pass in 4 steps, 1000000 ticks",
          "1 0 call a 1 delay = 0", "1 0 run -", "2 1000000 mark h 9", "2 1000000 run a", "3 1000000 call a 2 time = 1000000",
          "3 1000000 run -")
    # across the wrap of the tick: elapsed ticks count
    tells(f"start = {LARGEST}\n" + MARKS + task("raise h 2", "work 2"), "pass in 3 steps, 2 ticks", "2 1 mark h 9", "2 1 run -")


@case
def ops_about_handlers_are_allowed_everywhere():
    before = EACH_KIND + HANDLER
    tells(before + task("suspend_all", *OPS, "resume_all"), "pass in 6 steps, 0 ticks", "0 0 call a 0 suspend_all = 0",
          "5 0 call a 5 resume_all = 0", "5 0 run -")
    tells(before + task("enter_critical", *OPS, "exit_critical"), "pass in 6 steps, 0 ticks", "5 0 run -")
    for op in OPS:
        tells(before + task("suspend_all", op), "misuse a 1 4 in 2 steps, 0 ticks", "0 0 call a 0 suspend_all = 0")
        tells(before + task("enter_critical", op), "misuse a 1 7 in 2 steps, 0 ticks")
        # .. and leave the last answer alone, of a task and of a handler
        tells(before + task("add 1", op), "check a 0 in 1 steps, 0 ticks")
        tells(before + task("time", op, "expect 0"), "pass in 3 steps, 0 ticks", "0 0 call a 0 time = 0", "2 0 run -")
    ops = '["bits g", "disarm h", "arm h", "raise h 3", "cancel h", "expect 0"]'
    tells(EACH_KIND + HANDLER.replace("[]", ops) + task("work 1", "work 1") + '[[interrupt]]\ntick = 1\nhandler = "h"\n',
          "pass in 2 steps, 2 ticks", "0 1 isr h 0 bits = 0", "1 2 run -")


@case
def a_handler_may_name_one_that_comes_later_in_the_file():
    text = '[[handler]]\nname = "g"\nops = ["raise h 1"]\n' + MARKS + task("work 1", "work 1")
    tells(text + '[[interrupt]]\ntick = 1\nhandler = "g"\n', "pass in 2 steps, 2 ticks", "1 2 mark h 9", "1 2 run -")


@case
def as_many_raised_handlers_as_there_can_be():
    """16 of them at one tick, with four base interrupts before them, each with as many lines as handlers have."""
    marks = ", ".join(f'"mark {it}"' for it in range(16))
    handlers = "".join(f'[[handler]]\nname = "h{it}"\nops = [{marks}]\n' for it in range(16))
    raises = [f"raise h{15 - it} {16 - it}" for it in range(16)]
    text = handlers + task("suspend_all", *raises, "resume_all", "work 16")
    found = run_text(text)[1].decode().splitlines()
    equal([it for it in found if "mark" in it], [f"{18 + it} {it + 1} mark h{it} {mark}" for it in range(16) for mark in range(16)])
    at_once = handlers + task(*(f"raise h{15 - it} 1" for it in range(16)), "work 1")
    at_once += "".join('[[interrupt]]\ntick = 1\nhandler = "h0"\n' for _ in range(4))
    found = run_text(at_once)[1].decode().splitlines()
    names = ["h0"] * 4 + [f"h{it}" for it in range(16)]
    equal([it for it in found if "mark" in it], [f"16 1 mark {name} {mark}" for name in names for mark in range(16)])


@case
def the_limit_of_ticks_is_before_what_is_raised_later():
    for ticks, lines in ((3, ["3 3 mark h 9"]), (4, [])):
        tells("[limits]\nticks = 3\n" + MARKS + task(f"raise h {ticks}", "work 9"), "ticks in 4 steps, 3 ticks", *lines)

"""Files at the limits of docs/FORMATS.md and one past them: what is taken, and what is refused with which line."""
import json

from cases import case, equal
from running import HANDLER, TASK, TASK_RUNS, campaign_text, is_refused, points, run_text, runs_are

LARGEST = 4294967295
QUEUE = '[[queue]]\nname = "q"\nlength = 1\n'
GROUP = '[[group]]\nname = "g"\n'
VARIABLE = '[[variable]]\nname = "x"\n'
EACH_KIND = QUEUE + '[[binary]]\nname = "s"\n[[mutex]]\nname = "m"\n' + GROUP + VARIABLE


def task(*script, name="a", priority=1):
    return f'[[task]]\nname = "{name}"\npriority = {priority}\nscript = {json.dumps(script)}\n'


def entries(section, count, lines="", letter=None):
    """So many entries of a section, with names of their own and these lines each."""
    return "".join(f'[[{section}]]\nname = "{letter or section[0]}{it}"\n{lines}' for it in range(count))


def tells(text, head, *lines):
    """The run has this head line and these lines, and the status of its verdict."""
    wanted = "".join(f"{it}\n" for it in (f"base: {head}", *lines))
    equal(run_text(text), (0 if head.startswith("pass ") else 1, wanted.encode(), b""))


def is_taken(text):
    """The file is as good as that of TASK, whose run it has."""
    equal(run_text(text), (0, TASK_RUNS, b""))


def faults(text, line):
    is_refused(run_text(text), 3, line)


def refuses_numbers(text, place, *numbers, code="3 OutOfRange"):
    """With each of these numbers in the place of N the file is refused."""
    for number in numbers:
        faults(text.replace("N", str(number)), f"{code}: {place}")


@case
def edges_of_the_time_at_reset():
    tells("start = 0\n" + task("time"), "pass in 1 steps, 0 ticks", "0 0 call a 0 time = 0", "0 0 run -")
    tells(
        f"start = {LARGEST}\n" + task("time", "work 1", "time"), "pass in 3 steps, 1 ticks",
        f"0 {LARGEST} call a 0 time = {LARGEST}", "2 0 call a 2 time = 0", "2 0 run -",
    )
    refuses_numbers("start = N\n" + TASK, "start", -1, LARGEST + 1, 2**63 - 1, -(2**63))


@case
def edges_of_the_limits_of_a_run():
    for key in ("ticks", "steps"):
        is_taken(f"[limits]\n{key} = 1000000\n{TASK}")
        refuses_numbers(f"[limits]\n{key} = N\n{TASK}", f"limits {key}", 0, -1, 1_000_001)
    is_taken(f"{TICKLESS}{TASK}")
    refuses_numbers(f"tickless = true\n[limits]\nticks = N\n{TASK}", "limits ticks", 0, -1, 281474976710657, 2**63 - 1)
    refuses_numbers(f"tickless = true\n[limits]\nsteps = N\n{TASK}", "limits steps", 0, 1_000_001, 2**48)
    tells("[limits]\nticks = 1\n" + task("work 2"), "ticks in 1 steps, 1 ticks")
    tells("[limits]\nsteps = 1\n" + task("mark 1", "mark 2"), "steps in 1 steps, 0 ticks", "0 0 mark a 1")
    is_taken("[limits]\nsteps = 1\n" + TASK)
    tells(task("work 1000000"), "pass in 1000000 steps, 1000000 ticks", "999999 1000000 run -")
    tells(task("work 1000000", "mark 1"), "ticks in 1000000 steps, 1000000 ticks")
    # a delay takes a step of its own, so the steps come to their limit first
    tells(task("delay 1000000", "mark 1"), "steps in 1000000 steps, 999999 ticks", "0 0 call a 0 delay = 0", "0 0 run -")


@case
def a_loop_of_a_million_steps_comes_to_the_limit():
    tells(task("repeat 1000", "work 1000", "end"), "steps in 1000000 steps, 999000 ticks")


def without_end(*script):
    """A script that goes on for longer than any run."""
    return ["repeat 1000"] * 3 + [*script] + ["end"] * 3


def tasks_without_end(count, *script, rises=False):
    return "".join(task(*without_end(*script), name=f"t{it}", priority=it if rises else 1) for it in range(count))


TICKLESS = "tickless = true\n[limits]\nticks = 281474976710656\n"
# Runs of a million steps: the parts of the file, the verdict, and the digest of all that is written, as an independent program
# has it.
MILLION_STEPS = {
    "32 tasks that sleep a tick": ([tasks_without_end(32, "delay 1")], "steps in 1000000 steps, 15368 ticks", "b893763aa9da380f"),
    "32 tasks of all priorities that sleep": ([
        tasks_without_end(32, "delay 3", "delay 2", rises=True),
    ], "steps in 1000000 steps, 49472 ticks", "3219785aadcc1a4f"),
    "32 tasks that yield": ([tasks_without_end(32, "yield")], "steps in 1000000 steps, 0 ticks", "573cda2de750e256"),
    "31 tasks that wait for a bit": ([
        GROUP,
        tasks_without_end(31, "wait g 1 any clear forever"),
        task(*without_end("set g 1"), name="s", priority=0),
    ], "steps in 1000000 steps, 0 ticks", "dc95152d249e7c01"),
    "32 tasks at one queue": ([
        QUEUE,
        tasks_without_end(16, "receive q 2"),
        task(*without_end("send q 1 1"), name="s", priority=0),
        *[task(*without_end("send q 2 forever", "work 1"), name=f"u{it}", priority=it) for it in range(15)],
    ], "steps in 1000000 steps, 99947 ticks", "9d888583c85e983b"),
    "32 tasks at one mutex": ([
        '[[mutex]]\nname = "m"\n',
        *[task(*without_end(f"delay {it + 1}", "lock m forever", "work 1", "unlock m"), name=f"t{it}", priority=it % 8)
          for it in range(32)],
    ], "steps in 1000000 steps, 129358 ticks", "02415957c728c5e5"),
    "a scheduler that is suspended for 100 ticks again and again": ([
        task(*without_end("suspend_all", "work 100", "resume_all")), tasks_without_end(31, "delay 7", "yield"),
    ], "steps in 1000000 steps, 970854 ticks", "a46f8d6e9c955025"),
    "as many interrupts as there can be": ([
        '[[handler]]\nname = "h"\nops = ' + json.dumps(["mark 4294967295"] * 16) + "\n",
        task("work 1000000", "mark 1"),
        *[f'[[interrupt]]\ntick = {1 + it // 4}\nhandler = "h"\n' for it in range(1024)],
    ], "ticks in 1000000 steps, 1000000 ticks", "39a259b9e925afed"),
    "a daemon between tasks that wait for its bits": ([
        GROUP, '[[handler]]\nname = "h"\nops = ' + json.dumps(["set g 85", "clear g 20", "set g 170", "bits g"] * 4) + "\n",
        *[task(*without_end(f"wait g {1 << it} any clear {it + 1}", "work 1"), name=f"t{it}", priority=it) for it in range(8)],
        '[daemon]\nname = "d"\npriority = 4\nlength = 9\n',
        *[f'[[interrupt]]\ntick = {3 * it + 1}\nhandler = "h"\n' for it in range(1024)],
    ], "steps in 1000000 steps, 218312 ticks", "1b342261470cbe73"),
    "a tickless sensor that wakes each minute for months": ([
        TICKLESS, task(*without_end("delay_until 60000", "work 2", "time")), task(*without_end("delay_until 3600000"), name="b"),
    ], "steps in 1000000 steps, 9941400001 ticks", "4a86566f7187b975"),
    "32 tickless tasks that sleep for nearly a turn of the tick": ([
        "start = 4294967200\n", TICKLESS,
        *[task(*without_end(f"delay {4294967295 - it}", "work 1"), name=f"t{it}", priority=it) for it in range(32)],
    ], "steps in 1000000 steps, 33539399427048 ticks", "5fbc1ef17de9835a"),
    "sleeps up to the greatest limit of ticks": ([
        TICKLESS, task(*without_end("delay 4294967295")),
    ], "ticks in 196743 steps, 281474976710656 ticks", "1626c948b252d9ba"),
    "a tickless daemon, whose bits are waited for during hours": ([
        TICKLESS, GROUP, '[[handler]]\nname = "h"\nops = ["set g 3", "clear g 2"]\n',
        *[task(*without_end(f"wait g {it + 1} any clear {3600000 * (it + 1)}", f"delay {it}"), name=f"t{it}", priority=it)
          for it in range(3)],
        '[daemon]\nname = "d"\npriority = 2\nlength = 2\n',
        *[f'[[interrupt]]\ntick = {970 * it + 1}\nhandler = "h"\n' for it in range(1024)],
    ], "steps in 1000000 steps, 295409792311 ticks", "88ed35626c3b90c9"),
    "nobody but an interrupt at the last tick": ([
        QUEUE, HANDLER, *[task("receive q forever", name=f"t{it}") for it in range(32)],
        '[[interrupt]]\ntick = 1000000\nhandler = "h"\n',
    ], "steps in 1000000 steps, 999840 ticks", "78840fa74d98ac64"),
}


@case
def runs_of_a_million_steps_as_an_independent_program_has_them():
    runs_are(MILLION_STEPS)


@case
def edges_of_the_number_of_tasks():
    names = [f"t{it}" for it in range(32)]
    text = "".join(task(f"mark {it}", name=name) for it, name in enumerate(names))
    lines = [it for i, name in enumerate(names) for it in (f"{i} 0 mark {name} {i}", f"{i} 0 run {[*names, '-'][i + 1]}")]
    tells(text, "pass in 32 steps, 0 ticks", *lines)
    faults(text + task(name="t32"), "9 TooMany: task")
    # too many are reported before a look at the first
    faults("[[task]]\n" * 33, "9 TooMany: task")
    faults("task = []\n", "1 Missing: task")


@case
def edges_of_the_priorities():
    tells(
        task("mark 1", priority=0) + task("mark 2", name="b", priority=31), "pass in 2 steps, 0 ticks",
        "0 0 mark b 2", "0 0 run a", "1 0 mark a 1", "1 0 run -",
    )
    refuses_numbers(task(priority="N"), "task 0 priority", -1, 32, LARGEST + 1)


@case
def edges_of_a_script():
    tells(task(), "pass in 0 steps, 0 ticks")
    tells(task(*["time"] * 255, "mark 9"), "pass in 256 steps, 0 ticks", *[f"{it} 0 call a {it} time = 0" for it in range(255)],
          "255 0 mark a 9", "255 0 run -")
    faults(task(*["time"] * 257), "9 TooMany: task 0 script")
    # .. before any of its ops is read
    faults(task(*["no op"] * 257), "9 TooMany: task 0 script")


@case
def edges_of_loops():
    four = ["repeat 1"] * 4
    tells(task(*four, "mark 5", *["end"] * 4), "pass in 9 steps, 0 ticks", "4 0 mark a 5", "8 0 run -")
    faults(task(*four, "repeat 1", *["end"] * 5), "7 BadNesting: task 0 script 4")
    faults(task(*four, *["end"] * 5), "7 BadNesting: task 0 script 8")
    faults(task(*four, *["end"] * 3), "7 BadNesting: task 0 script 7")
    tells(task("repeat 1000", "end"), "pass in 1001 steps, 0 ticks", "1000 0 run -")


@case
def edges_of_a_name():
    for name in ("a" * 16, "Z", "a_9", "forever", "all", "none", "any", "keep", "clear", "mark"):
        tells(task("mark 1", name=name), "pass in 1 steps, 0 ticks", f"0 0 mark {name} 1", "0 0 run -")
    for name in ("", "a" * 17, "9", "_a", "a b", "a-b", " a", "a.b", "\u00e4", "\u00b2"):
        faults(task(name=name), "3 OutOfRange: task 0 name")
    for escape in ("\\u0000", "\\u001b[31m", "\\n", "\\u007f", "a\\u0000"):
        faults(task(name=escape), "3 OutOfRange: task 0 name")
    # the first pass goes through all sections before an op is read
    faults('[[handler]]\nname = "h"\nops = ["nop"]\n' + task(name="9"), "3 OutOfRange: task 0 name")


@case
def names_differ_also_between_sections():
    for section, place, lines in (
        ("binary", "binary 0", ""), ("counting", "counting 0", "max = 1\n"), ("mutex", "mutex 0", ""), ("group", "group 0", ""),
        ("variable", "variable 0", ""), ("handler", "handler 0", "ops = []\n"), ("task", "task 0", "priority = 1\nscript = []\n"),
    ):
        text = QUEUE.replace('"q"', '"a"') + f'[[{section}]]\nname = "a"\n{lines}'
        faults(text, f"6 DoubleName: {place} name")
    faults(TASK + HANDLER.replace('"h"', '"a"'), "6 DoubleName: task 0 name")


@case
def edges_of_the_objects_which_are_32_together():
    queues, mutexes = entries("queue", 20, "length = 1\n"), entries("mutex", 12)
    is_taken(queues + mutexes + TASK)
    faults(queues + entries("mutex", 13) + TASK, "9 TooMany: mutex")
    for section, lines in (("queue", "length = 1\n"), ("binary", ""), ("counting", "max = 1\n"), ("mutex", "")):
        is_taken(entries(section, 32, lines) + TASK)
        faults(entries(section, 33, lines) + TASK, f"9 TooMany: {section}")
    eight = "".join(
        entries(section, 8, lines)
        for section, lines in (("queue", "length = 1\n"), ("binary", ""), ("counting", "max = 1\n"), ("mutex", ""))
    )
    is_taken(eight + TASK)
    # the section that goes past the sum is named, in the order of the checks and not of the file
    faults(entries("mutex", 32) + QUEUE + TASK, "9 TooMany: mutex")
    faults(eight + '[[counting]]\nname = "more"\nmax = 1\n' + TASK, "9 TooMany: mutex")
    faults(entries("queue", 32, "length = 1\n") + entries("binary", 1) + TASK, "9 TooMany: binary")
    faults(entries("queue", 8, "length = 1\n") + entries("binary", 8) + entries("counting", 17, "max = 1\n") + entries("mutex", 1)
           + TASK, "9 TooMany: counting")


@case
def edges_of_a_queue():
    full = QUEUE.replace("1", "256")
    script = [f"send q {it} 0" for it in range(253)] + ["spaces q", "waiting q", "receive q 0"]
    lines = [f"{it} 0 call a {it} send = 1" for it in range(253)]
    lines += ["253 0 call a 253 spaces = 3", "254 0 call a 254 waiting = 253", "255 0 call a 255 receive = 0", "255 0 run -"]
    tells(full + task(*script), "pass in 256 steps, 0 ticks", *lines)
    # 256 items, and no room for one more
    script = ["repeat 256", "send q 7 0", "end", "send q 8 0", "spaces q", "waiting q"]
    lines = [f"{2 * it + 1} 0 call a 1 send = 1" for it in range(256)]
    lines += ["513 0 call a 3 send = 0", "514 0 call a 4 spaces = 0", "515 0 call a 5 waiting = 256", "515 0 run -"]
    tells(full + task(*script), "pass in 516 steps, 0 ticks", *lines)
    refuses_numbers(QUEUE.replace("1", "N") + TASK, "queue 0 length", -1, 0, 257)
    # 32 queues of the greatest length are all full at once
    queues = entries("queue", 32, "length = 256\n")
    script = ["repeat 256", *[f"send q{it} {it} 0" for it in range(32)], "end", *[f"waiting q{it}" for it in range(32)]]
    sends = [f"{1 + 33 * turn + it} 0 call a {1 + it} send = 1" for turn in range(256) for it in range(32)]
    counts = [f"{8449 + it} 0 call a {34 + it} waiting = 256" for it in range(32)]
    tells(queues + task(*script), "pass in 8481 steps, 0 ticks", *sends, *counts, "8480 0 run -")


@case
def edges_of_a_counting_semaphore():
    least = '[[counting]]\nname = "s"\nmax = 1\n'
    most = '[[counting]]\nname = "s"\nmax = 65535\ninitial = 65535\n'
    tells(least + task("give s", "give s", "take s 0", "take s 0"), "pass in 4 steps, 0 ticks", "0 0 call a 0 give = 1",
          "1 0 call a 1 give = 0", "2 0 call a 2 take = 1", "3 0 call a 3 take = 0", "3 0 run -")
    tells(most + task("give s", "take s 0", "give s"), "pass in 3 steps, 0 ticks", "0 0 call a 0 give = 0",
          "1 0 call a 1 take = 1", "2 0 call a 2 give = 1", "2 0 run -")
    refuses_numbers('[[counting]]\nname = "s"\nmax = N\n' + TASK, "counting 0 max", -1, 0, 65536)
    refuses_numbers('[[counting]]\nname = "s"\nmax = 7\ninitial = N\n' + TASK, "counting 0 initial", -1, 8, 65536)
    is_taken('[[counting]]\nname = "s"\nmax = 7\ninitial = 7\n' + TASK)


@case
def edges_of_event_groups():
    is_taken(entries("group", 16) + TASK)
    faults(entries("group", 17) + TASK, "9 TooMany: group")
    # they are counted by themselves
    is_taken(entries("group", 16) + entries("mutex", 32) + TASK)
    tells(GROUP + task("set g 16777215", "bits g", "clear g 1"), "pass in 4 steps, 0 ticks", "1 0 call a 0 set = 16777215",
          "2 0 call a 1 bits = 16777215", "3 0 call a 2 clear = 16777215", "3 0 run -")


@case
def edges_of_variables():
    is_taken(entries("variable", 32) + TASK)
    faults(entries("variable", 33) + TASK, "9 TooMany: variable")
    # they are counted by themselves
    is_taken(entries("variable", 32, "initial = 4294967295\n") + entries("group", 16) + entries("mutex", 32) + TASK)
    refuses_numbers('[[variable]]\nname = "x"\ninitial = N\n' + TASK, "variable 0 initial", -1, LARGEST + 1, 2**63 - 1, -(2**63))
    least, most = '[[variable]]\nname = "x"\ninitial = 0\n', f'[[variable]]\nname = "y"\ninitial = {LARGEST}\n'
    tells(least + most + task("load x", "sub 1", "expect y", "load y", "add y", f"store x {LARGEST}", "store x 0000000007"),
          "pass in 7 steps, 0 ticks", "0 0 call a 0 load = 0", f"1 0 call a 1 sub = {LARGEST}", f"3 0 call a 3 load = {LARGEST}",
          f"4 0 call a 4 add = {LARGEST - 1}", f"5 0 call a 5 store = {LARGEST}", "6 0 call a 6 store = 7", "6 0 run -")
    for name in ("none", "not", "below", "above", "answer", "forever", "load"):
        tells(f'[[variable]]\nname = "{name}"\n' + task(f"load {name}", f"add {name}", f"store {name} answer"), "pass in 3 steps, 0 ticks",
              "0 0 call a 0 load = 0", "1 0 call a 1 add = 0", "2 0 call a 2 store = 0", "2 0 run -")


@case
def edges_of_notifications():
    top = f"{LARGEST}"
    tells(task(f"notify a bits {top}", f"notify_wait 0 {top} 0", f"notify a overwrite {top}", "notify_take decrement 0", "notify a keep 0",
               f"notify_value_clear {top}", "notify a bits 0"), "pass in 7 steps, 0 ticks", "0 0 call a 0 notify = 1",
          f"1 0 call a 1 notify_wait = {top}", "2 0 call a 2 notify = 1", f"3 0 call a 3 notify_take = {top}", "4 0 call a 4 notify = 1",
          "5 0 call a 5 notify_value_clear = 0", "6 0 call a 6 notify = 1", "6 0 run -")
    for op in ("notify a bits N", "notify a overwrite N", "notify a keep N", "notify_wait N 0 0", "notify_wait 0 N 0", "notify_value_clear N"):
        refuses_numbers(task(op), "task 0 script 0", -1, LARGEST + 1, "00000000001", "0x1", code="4 BadOp")
        if op.startswith("notify a"):
            refuses_numbers(HANDLER.replace("[]", f'["{op}"]') + TASK, "handler 0 ops 0", -1, LARGEST + 1, code="4 BadOp")
    # the longest wait that ends, and one that doesn't
    for call in ("notify_take clear", "notify_wait 0 0"):
        refuses_numbers(task(f"{call} N"), "task 0 script 0", -1, LARGEST, "never", code="4 BadOp")
        for wait, head in ((f"{LARGEST - 1}", "ticks in 997 steps, 995 ticks"), ("forever", "stuck in 2 steps, 0 ticks")):
            tells("[limits]\nticks = 995\n" + task(f"{call} {wait}", "mark 1"), head, "1 0 run -")


@case
def edges_of_handlers():
    is_taken(entries("handler", 16, "ops = []\n") + TASK)
    faults(entries("handler", 17, "ops = []\n") + TASK, "9 TooMany: handler")
    sixteen = '[[handler]]\nname = "h"\nops = ' + json.dumps([f"mark {it}" for it in range(16)]) + "\n"
    marks = "".join(f"0 0 mark h {it}\n" for it in range(16))
    wanted = f"row 0 at 0 h: pass in 1 steps, 0 ticks\n{marks}0 0 mark a 7\n0 0 run -\n"
    equal(run_text(sixteen + TASK, "--at", "0", "--handler", "h"), (0, wanted.encode(), b""))
    faults(sixteen.replace('["mark 0"', '["mark 9", "mark 0"') + TASK, "9 TooMany: handler 0 ops")


@case
def edges_of_the_daemon():
    daemon = '[daemon]\nname = "d"\npriority = 0\nlength = 1\n'
    lines = ["0 0 mark a 7", "0 0 run d"]
    tells(TASK + daemon, "pass in 1 steps, 0 ticks", *lines)
    tells(TASK + daemon.replace("length = 1", "length = 256"), "pass in 1 steps, 0 ticks", *lines)
    tells(TASK + daemon.replace("priority = 0", "priority = 31"), "pass in 6 steps, 0 ticks", "4 0 run a", "5 0 mark a 7", "5 0 run -")
    refuses_numbers(TASK + daemon.replace("0", "N"), "daemon priority", -1, 32, 2**32)
    refuses_numbers(TASK + daemon.replace("1", "N"), "daemon length", -1, 0, 257)
    # it is one of the 32 tasks, and its queue none of the 32 objects
    others = entries("task", 30, "priority = 0\nscript = []\n")
    tells(TASK + others + daemon + entries("mutex", 32), "pass in 1 steps, 0 ticks", *lines)
    faults(TASK + others + entries("task", 1, "priority = 0\nscript = []\n", "u") + daemon, "9 TooMany: daemon")
    # it is found wherever it is in the file, and its name is one of all names
    tells(daemon + GROUP + TASK + HANDLER.replace("[]", '["set g 1"]'), "pass in 1 steps, 0 ticks", *lines)
    for name in ("q", "s", "m", "g", "x", "h", "a"):
        faults(EACH_KIND + TASK + HANDLER + daemon.replace('"d"', f'"{name}"'), "6 DoubleName: daemon name")
    tells(TASK + daemon.replace('"d"', '"a2345678901234_6"'), "pass in 1 steps, 0 ticks", lines[0], "0 0 run a2345678901234_6")
    faults(TASK + daemon.replace('"d"', '"a23456789012345_7"'), "3 OutOfRange: daemon name")


@case
def a_step_with_as_many_commands_as_handlers_have():
    ops = json.dumps([f"{'clear' if it % 3 else 'set'} g {it + 1}" for it in range(16)])
    handlers = "".join(f'[[handler]]\nname = "h{it}"\nops = {ops}\n' for it in range(4))
    text = GROUP + handlers + task("work 1") + "".join(f'[[interrupt]]\ntick = 1\nhandler = "h{it}"\n' for it in range(4))
    for length in (1, 63, 64, 256):
        lines = [f"0 1 isr h{it // 16} {it % 16} {'clear' if it % 16 % 3 else 'set'} = {int(it < length)}" for it in range(64)]
        tells(text + f'[daemon]\nname = "d"\npriority = 0\nlength = {length}\n', "pass in 1 steps, 1 ticks", *lines, "0 1 run d")


@case
def edges_of_base_interrupts():
    at = '[[interrupt]]\ntick = {}\nhandler = "h"\n'.format
    four = HANDLER + task("work 1") + at(1) * 4
    tells(four, "pass in 1 steps, 1 ticks", "0 1 run -")
    faults(four + at(1), "9 TooMany: interrupt 4")
    # the fifth of its tick, wherever it is
    faults(four + at(2) + at(1), "9 TooMany: interrupt 5")
    refuses_numbers(HANDLER + TASK + at("N"), "interrupt 0 tick", -1, 0, 1_000_001)
    is_taken(HANDLER + TASK + at(1_000_000))
    all_of_them = "".join(at(1 + it // 4) for it in range(1024))
    is_taken(HANDLER + TASK + all_of_them)
    faults(HANDLER + TASK + all_of_them + at(1_000_000), "9 TooMany: interrupt")
    # .. before a look at the first
    faults(HANDLER + TASK + "[[interrupt]]\n" * 1025, "9 TooMany: interrupt")
    marked = HANDLER.replace("[]", '["mark 3"]')
    lines = [line for it in range(1, 257) for line in [f"{it - 1} {it} mark h 3"] * 4]
    tells(marked + task("work 256") + all_of_them, "pass in 256 steps, 256 ticks", *lines, "255 256 run -")
    # in whatever order they are, they come at their ticks, and those of one tick in the order of the file
    three = "".join(f'[[handler]]\nname = "h{it}"\nops = ["mark {it}"]\n' for it in range(3))
    falling = "".join(f'[[interrupt]]\ntick = {tick}\nhandler = "h{it}"\n' for tick, it in ((3, 0), (1, 2), (3, 1), (1, 0)))
    lines = [f"{tick - 1} {tick} mark h{it} {it}" for tick, it in ((1, 2), (1, 0), (3, 0), (3, 1))]
    tells(three + task("work 3") + falling, "pass in 3 steps, 3 ticks", *lines, "2 3 run -")


@case
def a_step_with_as_many_events_as_handlers_can_tell():
    marks = [f"mark {it}" for it in range(16)]
    handlers = "".join(f'[[handler]]\nname = "h{it}"\nops = {json.dumps(marks)}\n' for it in range(5))
    text = handlers + task("work 1") + "".join(f'[[interrupt]]\ntick = 1\nhandler = "h{it}"\n' for it in range(4))
    lines = [f"0 {tick} mark h{it} {n}" for tick, it in ((0, 4), (1, 0), (1, 1), (1, 2), (1, 3)) for n in range(16)]
    wanted = "".join(f"{it}\n" for it in ["row 0 at 0 h4: pass in 1 steps, 1 ticks", *lines, "0 1 run -"])
    equal(run_text(text, "--at", "0", "--handler", "h4"), (0, wanted.encode(), b""))


@case
def numbers_of_ops_at_the_ends_of_their_range():
    tells(task("mark 0", "mark 4294967295", "mark 0000000001", "  mark   7  "), "pass in 4 steps, 0 ticks", "0 0 mark a 0",
          "1 0 mark a 4294967295", "2 0 mark a 1", "3 0 mark a 7", "3 0 run -")
    tells(task("repeat 1", "end", "delay_until 1", "delay 0"), "pass in 5 steps, 1 ticks", "2 0 call a 2 delay_until = 1",
          "2 0 run -", "3 1 run a", "4 1 call a 3 delay = 0", "4 1 run -")
    text = QUEUE + task("send q 4294967295 0", "receive q 0", "expect 4294967295", "receive q 0", "expect none", "expect 0")
    tells(text, "check a 5 in 6 steps, 0 ticks", "0 0 call a 0 send = 1", "1 0 call a 1 receive = 4294967295",
          "3 0 call a 3 receive = none")
    # the longest wait that ends, and one that doesn't
    for wait, head in (("4294967294", "ticks in 1000 steps, 995 ticks"), ("forever", "stuck in 5 steps, 0 ticks")):
        tells("[limits]\nticks = 995\n" + QUEUE + task(f"receive q {wait}", "mark 1"), head, "4 0 run -")
    tells("[limits]\nticks = 10\n" + task("delay 4294967295"), "pass in 1 steps, 0 ticks", "0 0 call a 0 delay = 0", "0 0 run -")
    tells("[limits]\nticks = 10\n" + task("delay_until 4294967295", "mark 1"), "ticks in 11 steps, 10 ticks",
          "0 0 call a 0 delay_until = 1", "0 0 run -")


@case
def edges_of_points():
    file = HANDLER + TASK
    total = "total 2: pass 2, check 0, misuse 0, ticks 0, steps 0, stuck 0, not reached 1\n"
    lines = TASK_RUNS.decode().partition("\n")[2]
    wanted = f"row 0 at 0 h: pass in 1 steps, 0 ticks\n{lines}row 1 at 1000000 h: not reached, pass in 1 steps, 0 ticks\n{lines}{total}"
    equal(campaign_text(file + points(" 0000000000  h ", "1000000 h")), (0, wanted.encode(), b""))


@case
def edges_of_the_number_of_points():
    file = HANDLER + TASK
    many = file + "[campaign]\npoints = [{}]\n"
    is_refused(campaign_text(many.format(1_000_001 * '"",')), 3, "9 TooMany: campaign points")
    faults(many.format(1_000_001 * "0,"), "9 TooMany: campaign points")
    is_taken(many.format(1_000_000 * '"0 h",'))
    # every entry is looked at
    is_refused(campaign_text(many.format(999_999 * '"0 h",' + '""')), 3, "4 BadOp: campaign points 999999")


@case
def many_keys_and_sections_that_are_ignored():
    many = range(50_000)
    is_taken(
        "".join(f"k{it} = 1\n" for it in many) + "".join(f"d.k{it} = 1\n" for it in many) + "x = [" + 50_000 * "1," + "]\n"
        + "".join(f"[t{it}]\n" for it in many) + "[[other]]\n" * 50_000 + TASK
    )


@case
def what_a_task_may_not_do_while_the_scheduler_is_suspended():
    misused = ["delay 1", "delay 0", "delay_until 1", "yield", "send q 1 0", "send_front q 1 0", "overwrite q 1", "receive q 0",
               "peek q 0", "take s 0", "give s", "lock m 0", "unlock m", "set g 1", "wait g 1 any keep 0", "suspend b", "suspend a",
               "resume b", "resume a", "notify b none", "notify a keep 1", "notify_take clear 0", "notify_wait 0 0 0"]
    both = EACH_KIND + task(name="b", priority=0)
    for op in misused:
        tells(both + task("suspend_all", op), "misuse a 1 1 in 2 steps, 0 ticks", "0 0 call a 0 suspend_all = 0")
    allowed = ["work 1", "repeat 1", "end", "mark 3", "time", "waiting q", "spaces q", "bits g", "clear g 1", "expect 0",
               "load x", "add 3", "store x answer", "notify_clear", "notify_value_clear 1", "suspend_all", "resume_all"]
    tells(both + task("suspend_all", *allowed, "resume_all"), "pass in 19 steps, 1 ticks", "0 0 call a 0 suspend_all = 0",
          "4 0 mark a 3", "5 0 call a 5 time = 0", "6 0 call a 6 waiting = 0", "7 0 call a 7 spaces = 1", "8 0 call a 8 bits = 0",
          "9 0 call a 9 clear = 0", "11 0 call a 11 load = 0", "12 0 call a 12 add = 3", "13 0 call a 13 store = 3",
          "14 0 call a 14 notify_clear = 0", "15 0 call a 15 notify_value_clear = 0", "16 0 call a 16 suspend_all = 0",
          "17 0 call a 17 resume_all = 0", "18 1 call a 18 resume_all = 0", "18 1 run -")


@case
def the_other_misuses():
    tells(task("resume_all"), "misuse a 0 2 in 1 steps, 0 ticks")
    tells(EACH_KIND + task("lock m 0", priority=2) + task("unlock m", name="b"), "misuse b 0 3 in 2 steps, 0 ticks",
          "0 0 call a 0 lock = 1", "0 0 run b")
    tells(task("suspend_all"), "misuse a 0 4 in 1 steps, 0 ticks", "0 0 call a 0 suspend_all = 0")


@case
def what_a_task_may_not_do_in_a_critical_section():
    misused = ["work 1", "delay 1", "delay 0", "delay_until 1", "yield", "send q 1 0", "send_front q 1 0", "overwrite q 1", "receive q 0",
               "peek q 0", "take s 0", "give s", "lock m 0", "set g 1", "wait g 1 any keep 0", "suspend b", "suspend a", "resume b",
               "resume a", "suspend_all", "notify b none", "notify a keep 1", "notify_take clear 0", "notify_wait 0 0 0"]
    both = EACH_KIND + task(name="b", priority=0)
    for op in misused:
        tells(both + task("enter_critical", op), "misuse a 1 5 in 2 steps, 0 ticks")
    tells(both + task("lock m 0", "enter_critical", "unlock m"), "misuse a 2 5 in 3 steps, 0 ticks", "0 0 call a 0 lock = 1")
    tells(both + task("suspend_all", "enter_critical", "resume_all"), "misuse a 2 5 in 3 steps, 0 ticks", "0 0 call a 0 suspend_all = 0")
    # the least code is told
    tells(both + task("enter_critical", "unlock m"), "misuse a 1 3 in 2 steps, 0 ticks")
    tells(both + task("enter_critical", "resume_all"), "misuse a 1 2 in 2 steps, 0 ticks")
    tells(both + task("suspend_all", "enter_critical", "yield"), "misuse a 2 1 in 3 steps, 0 ticks", "0 0 call a 0 suspend_all = 0")
    allowed = ["repeat 1", "end", "mark 3", "time", "waiting q", "spaces q", "bits g", "clear g 1", "expect 0", "if 0", "else", "end",
               "stamp", "since", "enter_critical", "exit_critical", "load x", "sub 3", "store x 2", "notify_clear", "notify_value_clear 1"]
    tells(both + task("enter_critical", *allowed, "exit_critical"), "pass in 22 steps, 0 ticks", "3 0 mark a 3", "4 0 call a 4 time = 0",
          "5 0 call a 5 waiting = 0", "6 0 call a 6 spaces = 1", "7 0 call a 7 bits = 0", "8 0 call a 8 clear = 0",
          "13 0 call a 14 since = 0", "16 0 call a 17 load = 0", "17 0 call a 18 sub = 4294967293", "18 0 call a 19 store = 2",
          "19 0 call a 20 notify_clear = 0", "20 0 call a 21 notify_value_clear = 0", "21 0 run -")


@case
def the_misuses_at_the_ends_of_critical_sections():
    tells(task("exit_critical"), "misuse a 0 6 in 1 steps, 0 ticks")
    tells(task("enter_critical", "exit_critical", "exit_critical"), "misuse a 2 6 in 3 steps, 0 ticks")
    tells(task("enter_critical"), "misuse a 0 7 in 1 steps, 0 ticks")
    tells(task("enter_critical", "enter_critical", "exit_critical"), "misuse a 2 7 in 3 steps, 0 ticks")
    tells(task("suspend_all", "enter_critical"), "misuse a 1 4 in 2 steps, 0 ticks", "0 0 call a 0 suspend_all = 0")
    many = ["repeat 1000", "enter_critical", "end", "repeat 1000", "exit_critical", "end"]
    tells(task(*many), "pass in 4002 steps, 0 ticks", "4001 0 run -")


@case
def a_mutex_that_its_holder_locks_again():
    tells(EACH_KIND + task("lock m 0", "lock m 3"), "pass in 10 steps, 3 ticks", "0 0 call a 0 lock = 1", "5 0 run -", "8 3 run a",
          "9 3 call a 1 lock = 0", "9 3 run -")
    tells(EACH_KIND + task("lock m 0", "lock m forever"), "stuck in 6 steps, 0 ticks", "0 0 call a 0 lock = 1", "5 0 run -")


@case
def the_step_of_the_command_line_at_its_edge():
    wanted = TASK_RUNS.replace(b"base: ", b"row 0 at 1000000 h: not reached, ")
    equal(run_text(HANDLER + TASK, "--at", "1000000", "--handler", "h"), (0, wanted, b""))
    for step in ("1000001", "4294967296", "99999999999999999999", "-1", "", "1.0", "0x1", "one"):
        status, out, err = run_text(HANDLER + TASK, f"--at={step}", "--handler", "h")
        equal((status, out, err.startswith(b"error: ")), (2, b"", True))

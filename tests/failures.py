"""Files, devices and streams that fail or never end, little memory, and signals: what the program still answers."""
import contextlib
import itertools
import json
import os
import re
import resource
import shutil
import signal
import socket
import subprocess
import threading
import time

from cases import case, equal, long_case
from running import (HANDLER, PATIENCE, PROGRAM, ROOT, TASK, TASK_RUNS, is_refused, points, run, run_text, shown_on_a_terminal,
                     started_with_small_pipe, stored, write)

EXAMPLES = sorted(it[:-5] for it in os.listdir(f"{ROOT}/examples") if it.endswith(".toml"))
CANNOT_WRITE = b"rtosim: cannot write\n"
OUT_OF_MEMORY = (4, b"", b"rtosim: out of memory\n")
ROWS = 500
LINES = "0 0 mark h 1\n0 0 mark a 7\n0 0 run -\n"


def campaign_of(rows):
    """A campaign of this many rows. The report of 500 takes several pages."""
    return HANDLER.replace("[]", '["mark 1"]') + TASK + points(*["0 h"] * rows)


MANY_ROWS = campaign_of(ROWS)


def rows_report(rows):
    """The report of this campaign."""
    text = "".join(f"row {it} at 0 h: pass in 1 steps, 0 ticks\n{LINES}" for it in range(rows))
    return f"{text}total {rows}: pass {rows}, check 0, misuse 0, ticks 0, steps 0, stuck 0, not reached 0\n".encode()


def is_beginning(found, whole):
    """Less than the whole, and so without the end of the line of totals, by which a whole report is known."""
    assert len(found) < len(whole) and whole.startswith(found), f"{len(found)} of {len(whole)} bytes: {found[-60:]!r}"


# Cut files


def text_of(example):
    """The example without the comment at its beginning."""
    lines = stored(f"examples/{example}.toml").splitlines(keepends=True)
    return b"".join(itertools.dropwhile(lambda it: it.startswith(b"#"), lines))


def cuts(example, command):
    """The stored answers: for each length of the text the status and the text of a report, or a fault line.

    tests/cuts/EXAMPLE.COMMAND has lines FROM TO STATUS FAULT, or FROM TO STATUS and then the report, indented; of the whole
    example 'as stored'. An independent program wrote them."""
    answers = []
    for line in stored(f"tests/cuts/{example}.{command}").decode().splitlines():
        if line.startswith(" "):
            answers[-1][3] += f"{line.strip()}\n"
        else:
            first, last, status, *told = line.split(" ", 3)
            answers.append([int(first), int(last), int(status), *(told or [""])])
    whole = stored(f"examples/{example}.{'out' if command == 'run' else 'report'}")
    for first, last, status, told in answers:
        wanted = (status, b"", f"rtosim: {told}\n".encode()) if status == 3 else (status, told.encode(), b"")
        for length in range(first, last + 1):
            yield length, (status, whole, b"") if told == "as stored" else wanted


def each_cut(example, command):
    text, lengths = text_of(example), 0
    for length, wanted in cuts(example, command):
        assert length == lengths, f"{example}: no answer for {lengths} bytes"
        write("cut.toml", text[:length])
        found = run(command, "cut.toml")
        assert found == wanted, f"{example}, {length} bytes: {found}, and not {wanted}"
        lengths += 1
    equal(lengths, len(text) + 1)


@case
def a_file_cut_at_each_byte_is_judged_as_the_text_that_it_is():
    each_cut("timeout_race", "campaign")
    each_cut("timeout_race", "run")


@long_case
def each_example_cut_at_each_byte():
    for name in sorted(os.listdir(f"{ROOT}/tests/cuts")):
        each_cut(*name.split("."))
    assert {it.split(".")[0] for it in os.listdir(f"{ROOT}/tests/cuts")} == set(EXAMPLES), "an example has no stored cuts"


@case
def a_byte_that_is_no_text_anywhere_in_a_file():
    text = text_of("timeout_race")
    is_refused(run_text(b"\xff" + text), 3, "not TOML")
    is_refused(run_text(text + b"\xff"), 3, "not TOML")
    for byte in (b"\xff", b"\x00", b"\x1b", b"\x80", b"\xc3"):
        for at in range(0, len(text), 7):
            write("changed.toml", text[:at] + byte + text[at:])
            is_refused(run("campaign", "changed.toml"), 3, "not TOML")


# Reading


@case
def each_way_in_which_a_file_can_not_be_read():
    os.symlink("loop", "loop")
    write("file", TASK)
    with socket.socket(socket.AF_UNIX) as it:
        it.bind("socket")
    # (the last opens, and its first byte can't be read)
    for name in ("not there", "file/below", "loop", "socket", 300 * "n", 5000 * "n/", ".", "..", "/", "/proc/self/mem"):
        for command in ("run", "campaign"):
            is_refused(run(command, name), 3, f"cannot read {name}")


@case
def a_file_that_may_not_be_read():
    # (root may read it: then the program, in a copy that anybody may start, is started as nobody)
    become = (lambda: os.setuid(65534)) if os.geteuid() == 0 else None
    os.chmod(".", 0o755)
    shutil.copy(PROGRAM, "program")
    write("file", TASK)
    for mode, wanted in ((0o644, (0, TASK_RUNS, b"")), (0, (3, b"", b"rtosim: cannot read file\n"))):
        os.chmod("file", mode)
        ran = subprocess.run(["./program", "run", "file"], preexec_fn=become, capture_output=True, timeout=PATIENCE)
        equal((ran.returncode, ran.stdout, ran.stderr), wanted)


@case
def a_file_through_a_pipe_of_a_name_byte_by_byte():
    text, wanted = text_of("timeout_race"), stored("examples/timeout_race.report")
    os.mkfifo("pipe")
    for step in (1, 100):
        def give():
            with open("pipe", "wb", buffering=0) as it:
                for at in range(0, len(text), step):
                    it.write(text[at : at + step])

        giver = threading.Thread(target=give)
        giver.start()
        equal(run("campaign", "pipe"), (1, wanted, b""))
        giver.join()


# Writing


def written_with_room(size, *words):
    """Status, output and faults where the file of the output takes no more bytes than this."""
    def limit():
        signal.signal(signal.SIGXFSZ, signal.SIG_IGN)
        resource.setrlimit(resource.RLIMIT_FSIZE, (size, size))

    with open("report", "w+b") as it:
        status, _, err = run(*words, stdout=it, preexec_fn=limit, restore_signals=False)
        it.seek(0)
        return status, it.read(), err


def each_room(name, command, whole, step):
    status, words = 0 if name == "round_robin" else 1, [command, f"{ROOT}/examples/{name}.toml"]
    for size in range(0, len(whole), step):
        equal(written_with_room(size, *words), (5, whole[:size], CANNOT_WRITE))
    equal(written_with_room(len(whole), *words), (status, whole, b""))


@case
def what_a_full_disk_leaves_is_a_beginning_of_the_report():
    each_room("timeout_race", "campaign", stored("examples/timeout_race.report"), 13)
    each_room("round_robin", "run", stored("examples/round_robin.out"), 1)


@case
def what_a_full_disk_leaves_of_a_text_that_several_workers_spell_is_a_beginning():
    write("application.toml", MANY_ROWS)
    whole = rows_report(ROWS)
    for workers in ("2", "5"):
        words = ["campaign", "--workers", workers, "--block", "7", "application.toml"]
        for size in range(0, len(whole), 997):
            equal(written_with_room(size, *words), (5, whole[:size], CANNOT_WRITE))
        equal(written_with_room(len(whole), *words), (0, whole, b""))


@long_case
def each_beginning_that_a_full_disk_leaves():
    for name in ("timeout_race", "lost_wake_up"):
        each_room(name, "campaign", stored(f"examples/{name}.report"), 1)


@case
def a_campaign_whose_report_can_not_be_written():
    write("application.toml", MANY_ROWS)
    with open("/dev/full", "wb") as full:
        equal(run("campaign", "application.toml", stdout=full), (5, None, CANNOT_WRITE))
    equal(run("campaign", "application.toml", preexec_fn=lambda: os.close(1)), (5, b"", CANNOT_WRITE))
    with open("application.toml", "rb") as only_read:
        equal(run("campaign", "application.toml", stdout=only_read), (5, None, CANNOT_WRITE))


@case
def a_pipe_that_takes_nothing_more_and_may_not_be_waited_for():
    write("application.toml", MANY_ROWS)
    with started_with_small_pipe("campaign", "application.toml", preexec_fn=lambda: os.set_blocking(1, False)) as started:
        equal((started.stderr.read(), started.wait()), (CANNOT_WRITE, 5))
        is_beginning(started.stdout.read(1 << 20), rows_report(ROWS))


@case
def faults_that_can_not_be_told_change_no_status():
    for words, status in (
        (["run", "not there"], 3), (["run", "application.toml"], 0), (["run", "application.toml", "--at", "0"], 2), (["fly"], 2),
    ):
        run_text(TASK)
        wanted = TASK_RUNS if status == 0 else b""
        with open("/dev/full", "wb") as full:
            equal(run(*words, stderr=full), (status, wanted, None))
        found = run(*words, preexec_fn=lambda: os.close(2))
        equal(found, (status, wanted, b""))


@case
def the_file_stays_as_it_is_where_all_streams_are_closed():
    write("application.toml", TASK)

    def closed():
        for it in (0, 1, 2):
            os.close(it)

    status, _, _ = run("run", "application.toml", preexec_fn=closed)
    with open("application.toml", "rb") as it:
        equal((status, it.read()), (5, TASK.encode()))


# Signals

# A campaign that runs for some minutes, and writes nothing before it has run. When the handler comes shows when the sleeper sleeps from
# there on, so no row goes on as the one before it.
LONG_CAMPAIGN = (
    HANDLER.replace("[]", '["resume sleeper"]')
    + '[[task]]\nname = "sleeper"\npriority = 2\nscript = ["suspend sleeper", "repeat 1000", "delay 200000", "end"]\n'
    + TASK.replace('"mark 7"', '"repeat 1000", "work 900", "end"')
    + points("all h")
)


def stopped_by(number, started):
    """Sends the signal, and returns how the program ended, what it wrote, and after how many seconds."""
    began = time.monotonic()
    started.send_signal(number)
    status = started.wait(PATIENCE)
    return status, started.stdout.read(), started.stderr.read(), time.monotonic() - began


@case
def a_campaign_that_is_stopped_ends_at_once_and_has_written_nothing():
    write("application.toml", LONG_CAMPAIGN)
    streams = {"stdout": subprocess.PIPE, "stderr": subprocess.PIPE}
    for number in (signal.SIGINT, signal.SIGTERM, signal.SIGHUP):
        with subprocess.Popen([PROGRAM, "campaign", "application.toml"], **streams) as started:
            time.sleep(0.2)
            equal(started.poll(), None)
            status, out, err, seconds = stopped_by(number, started)
            equal((status, out, err), (-number, b"", b""))
            assert seconds < 5, seconds


@case
def a_campaign_that_is_stopped_while_it_writes_leaves_a_beginning():
    write("application.toml", MANY_ROWS)
    whole = rows_report(ROWS)
    for number in (signal.SIGINT, signal.SIGTERM):
        with started_with_small_pipe("campaign", "application.toml") as started:
            head = started.stdout.read(1)
            started.send_signal(number)
            status = started.wait(PATIENCE)
            found = head + b"".join(iter(lambda: started.stdout.read(1 << 16), b""))
            equal((status, started.stderr.read()), (-number, b""))
        is_beginning(found, whole)


@case
def a_run_that_is_held_and_goes_on_writes_all_of_its_report():
    write("application.toml", MANY_ROWS)
    with started_with_small_pipe("campaign", "application.toml") as started:
        found = started.stdout.read(1)
        for _ in range(5):
            started.send_signal(signal.SIGSTOP)
            started.send_signal(signal.SIGCONT)
            started.send_signal(signal.SIGWINCH)
            found += started.stdout.read(1000)
        found += b"".join(iter(lambda: started.stdout.read(1 << 16), b""))
        equal((started.wait(PATIENCE), started.stderr.read()), (0, b""))
    equal(found, rows_report(ROWS))


# Memory


def with_memory(kilobytes, *words, kind=resource.RLIMIT_AS, **how):
    """Runs the program with this much memory in all, as `ulimit -v` gives it, or of the heap alone, as `ulimit -d` does."""
    return run(*words, preexec_fn=lambda: resource.setrlimit(kind, (kilobytes << 10, kilobytes << 10)), **how)


def least(kind, step, found, *words):
    """With how many kilobytes at least, in steps, the program ends like this. With less the system doesn't start it, or ends it
    for want of a stack."""
    return next(it for it in range(step, 1 << 16, step) if with_memory(it, *words, kind=kind)[0] in found)


def answers(kind, size, step, whole, *words):
    """What the program answers with more and more memory of this kind, from this size on, until it is the whole each time."""
    found = []
    while found[-8:] != [whole] * 8:
        assert len(found) < 5000, f"with {size} kilobytes it is not the whole"
        found.append(with_memory(size, *words, kind=kind))
        size += step or max(4, size // 8)
    return found


def with_falling_memory(whole, step, *words):
    """With each size of the heap, from the least with which the program starts, it answers this, or that no memory is left.
    Returns how often no memory was left."""
    size = least(resource.RLIMIT_DATA, 4, (3, 4), "run", "not there")
    found = answers(resource.RLIMIT_DATA, size, step, whole, *words)
    for it in found:
        if it != OUT_OF_MEMORY:
            equal(it, whole)
    return found.count(OUT_OF_MEMORY)


def many_events():
    """A run of 60,000 events, and its report."""
    turns = 300
    script = ["repeat 300", *["mark 7"] * 200, "end"]
    lines = (f"{1 + turn * 201 + it} 0 mark a 7\n" for turn in range(turns) for it in range(200))
    text = TASK.replace('["mark 7"]', json.dumps(script))
    steps = 1 + turns * 201
    return text, f"base: pass in {steps} steps, 0 ticks\n{''.join(lines)}{steps - 1} 0 run -\n".encode()


def long_script():
    """An application whose file is large, and its report."""
    tasks = "".join(TASK.replace('"a"', f'"a{it}"').replace("mark 7", f"mark{3000 * ' '}7") for it in range(32))
    lines = "".join(f"{it} 0 mark a{it} 7\n{it} 0 run {f'a{it + 1}' if it < 31 else '-'}\n" for it in range(32))
    return tasks, f"base: pass in 32 steps, 0 ticks\n{lines}".encode()


def many_states():
    """An application of 16 handlers, each of which leaves an item of its own, and how the runs of all placements end. Of up to two
    injections before ten steps there are 1 + 16 * 10 + 16 * 16 * 55."""
    queues = "".join(f'[[queue]]\nname = "q{it}"\nlength = 2\n' for it in range(16))
    handlers = "".join(HANDLER.replace('"h"', f'"h{it}"').replace("[]", f'["send q{it} 1"]') for it in range(16))
    report = "pass: 14241 placements, least is none in 10 steps, 9 ticks\ntotal 14241\n"
    return queues + handlers + TASK.replace('"mark 7"', 9 * '"work 1", ' + '"mark 7"'), report.encode()


def each_with_falling_memory(step):
    """How often no memory was left: of a campaign, of a run of many events, of a large file."""
    rows = 3000
    write("campaign.toml", campaign_of(rows))
    yield with_falling_memory((0, rows_report(rows), b""), step, "campaign", "campaign.toml")
    for name, (text, wanted) in (("events.toml", many_events()), ("large.toml", long_script())):
        write(name, text)
        yield with_falling_memory((0, wanted, b""), step, "run", name)


@case
def with_little_memory_the_answer_is_whole_or_says_so():
    refused = list(each_with_falling_memory(None))
    assert min(refused) > 5, refused


@long_case
def with_each_size_of_the_heap_the_answer_is_whole_or_says_so():
    refused = list(each_with_falling_memory(4))
    assert min(refused) > 50, refused


@case
def with_little_memory_for_words_the_answer_is_whole_or_says_so():
    write("application.toml", TASK)
    for words in (["--help"], ["--version"], ["walk"], ["run", "application.toml", "--at", "x"], ["run", "application.toml"]):
        refused = with_falling_memory(run(*words), 4, *words)
        assert refused > 5, refused


def with_little_memory_in_all(job, path, whole, *words):
    """What a job answers with little memory, its stack included, except for its report and that no memory is left."""
    # (where the stack begins is random, so the least differs from start to start, by a page or two)
    first = least(resource.RLIMIT_AS, 64, (0,), job, "application.toml") + 16
    found = answers(resource.RLIMIT_AS, first, 16, whole, job, path, *words)
    assert found.count(OUT_OF_MEMORY) > 5, found.count(OUT_OF_MEMORY)
    return [it for it in found if it not in (OUT_OF_MEMORY, whole)]


@case
def with_little_memory_in_all_the_answer_is_whole_or_says_so():
    rows, (text, events), (states, ends) = 3000, many_events(), many_states()
    files = {"application.toml": TASK, "campaign.toml": campaign_of(rows), "events.toml": text, "states.toml": states}
    for path, content in files.items():
        write(path, content)
    equal(with_little_memory_in_all("campaign", "campaign.toml", (0, rows_report(rows), b"")), [])
    equal(with_little_memory_in_all("run", "events.toml", (0, events, b"")), [])
    equal(with_little_memory_in_all("explore", "states.toml", (0, ends, b""), "--injections", "2"), [])


@case
def a_text_of_20_megabytes_of_spaces_takes_four_times_its_size_at_most():
    size = 20 << 20
    wide = f"0{size * ' '}h"
    for text in (TASK.replace("mark 7", f"mark{size * ' '}7"), HANDLER.replace("[]", f'["mark{size * " "}7"]') + TASK,
                 HANDLER + TASK + points(wide), f"#{size * ' '}\n{TASK}"):
        write("wide.toml", text)
        equal(with_memory(4 * size >> 10, "run", "wide.toml"), (0, TASK_RUNS, b""))


@case
def a_million_points_in_512_megabytes():
    write("application.toml", HANDLER + TASK + "[campaign]\npoints = [" + 1_000_000 * '"0 h",' + "]\n")
    with open("report", "w+b") as it:
        status, _, told = with_memory(512 << 10, "campaign", "application.toml", stdout=it)
        it.seek(0)
        found = it.read()
    if status == 4:
        equal((found, told), (b"", b"rtosim: out of memory\n"))
        return
    rows = b"".join(b"row %d at 0 h: pass in 1 steps, 0 ticks\n0 0 mark a 7\n0 0 run -\n" % it for it in range(1_000_000))
    total = b"total 1000000: pass 1000000, check 0, misuse 0, ticks 0, steps 0, stuck 0, not reached 0\n"
    equal((status, found, told), (0, rows + total, b""))


# What is shown


@case
def a_campaign_shows_on_a_terminal_how_far_it_is_unless_it_is_quiet():
    shown = shown_on_a_terminal(LONG_CAMPAIGN, PATIENCE, "campaign")
    assert re.fullmatch(rb"\rrtosim: [1-9]\d* of 901002 rows", shown), shown
    equal(shown_on_a_terminal(LONG_CAMPAIGN, 1.5, "campaign", "--quiet"), b"")


def quota():
    """How many processors the container may use, if it has a limit."""
    with contextlib.suppress(OSError, ValueError):
        with open("/sys/fs/cgroup/cpu.max") as it:
            limit, period = map(int, it.read().split())
            return max(limit // period, 1)
    return 64


def most_threads(processors, *words):
    """How many threads the program has at most in the first second of a long campaign on these processors."""
    write("application.toml", LONG_CAMPAIGN)
    with subprocess.Popen([PROGRAM, "campaign", "application.toml", *words], stdout=subprocess.DEVNULL,
                          preexec_fn=lambda: os.sched_setaffinity(0, processors)) as started:
        seen, end = [], time.monotonic() + 1
        while time.monotonic() < end:
            seen.append(len(os.listdir(f"/proc/{started.pid}/task")))
            time.sleep(0.01)
        started.kill()
    return max(seen)


@case
def auto_stands_for_a_worker_a_processor():
    processors = sorted(os.sched_getaffinity(0))
    for some in (processors[:1], processors[:2]):
        for words in (["--workers", "auto"], ["--workers=auto"]):
            equal(most_threads(some, *words), min(len(some), quota()))


def controls(text):
    """The control characters of what is written, except for the feeds of lines."""
    return [it for it in text.decode("utf-8", "surrogateescape") if it != "\n" and (it < " " or "\x7f" <= it < "\xa0")]


@case
def no_control_character_of_a_file_is_shown():
    for escape in ("\\u001b[31m", "\\u0007", "\\u007f", "\\u0085", "\\n", "\\r", "\\u0000"):
        for text in (
            TASK.replace('"a"', f'"a{escape}"'), TASK.replace("mark 7", f"mark{escape} 7"), TASK.replace("mark 7", escape),
            HANDLER.replace("[]", f'["{escape}"]') + TASK, HANDLER + TASK + points("0 h").replace("h\"", f'h{escape}"'),
            f'"{escape}" = 1\n{TASK}', TASK + f'["{escape}"]\n',
        ):
            for command in ("run", "campaign"):
                write("application.toml", text)
                _, out, err = run(command, "application.toml")
                equal((controls(out), controls(err)), ([], []))


STRANGE = "x\x1b[31m\r\x07\x08\x7f\u0085\u00a0\u00e9\\y"


def shown(name):
    """The name as it is shown: the number of a control character in two hexadecimal digits."""
    return "".join(f"\\u{{{ord(it):02x}}}" if controls(it.encode()) or it == "\n" else it for it in name)


@case
def no_control_character_of_a_file_name_is_shown():
    for name in (STRANGE, f"{STRANGE}\nrtosim: all is well"):
        is_refused(run("run", name), 3, f"cannot read {shown(name)}")
        is_refused(run("campaign", name), 3, f"cannot read {shown(name)}")


@case
def no_control_character_of_a_handler_is_shown():
    for name in (STRANGE, f"{STRANGE}\nrtosim: all is well"):
        is_refused(run_text(HANDLER + TASK, "--at", "0", "--handler", name), 2, f"unknown handler {shown(name)}")


@case
def no_control_character_of_a_refused_word_is_shown():
    for words in ([STRANGE], ["run", "a", STRANGE], ["run", "a", f"--at={STRANGE}", "--handler", "h"], ["run", f"--{STRANGE}"]):
        status, out, err = run(*words)
        equal((status, out, controls(err)), (2, b"", []))
        assert shown(STRANGE) in err.decode(), err


# Input without end

MOST = 64 << 20


def is_too_large(*words, **how):
    """The file is refused as too large, in less memory than four times the most that is read."""
    found = with_memory((MOST >> 10) * 4, *words, **how)
    is_refused(found, 3, f"cannot read {words[1]}: larger than 64 MiB")


@case
def a_file_of_more_than_64_megabytes():
    with open("large.toml", "wb") as it:
        it.truncate(MOST + 1)
    is_too_large("run", "large.toml")
    is_too_large("campaign", "large.toml")
    with open("just.toml", "wb") as it:
        it.write(b"#" * (MOST - len(TASK) - 1) + b"\n" + TASK.encode())
    equal(run("run", "just.toml"), (0, TASK_RUNS, b""))


@case
def input_without_end():
    is_too_large("run", "/dev/zero")
    os.mkfifo("pipe")
    with subprocess.Popen(["sh", "-c", "exec yes '# and on' >pipe"], stderr=subprocess.DEVNULL) as giver:
        try:
            is_too_large("campaign", "pipe")
        finally:
            giver.kill()

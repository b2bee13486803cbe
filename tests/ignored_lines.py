"""Cases of the launcher: what `run` and `campaign` ignore of an application is named on standard error, and nothing else changes."""
import os
import random
import re
import shutil
import subprocess
import sys

from cases import case, equal
from checkout import BUILT, TESTS

sys.path.insert(0, f"{TESTS}/../tools")
from rtosim_check import formats, ignored, toml_reader

TASK = '[[task]]\nname = "a"\npriority = 1\nscript = ["work 3"]\n'
LOOKS = f"{TESTS}/../tools/plain_application.awk"
# Of each file the lines that are said, without their front.
SAID = {
    "": [],
    TASK: [],
    f"{TASK}[campain]\npoints = []\n": [
        "line 5: [campain] is ignored: there is no such section; did you mean [campaign]?"],
    f"begin = 3\n{TASK}": ['line 1: "begin" is ignored: there is no such key'],
    f"{TASK}prio = 2\n": ['line 5: task "a": "prio" is ignored: it isn\'t a key of [[task]]; did you mean "priority"?'],
    f"{TASK}length = 2\n": ['line 5: "length" is ignored, since it is below [[task]]; it belongs under [[queue]] or [daemon]'],
    f"[limits]\nsteps = 5\nstart = 3\n{TASK}": ['line 3: "start" is ignored, since it is below [limits]; it belongs above the first table'],
    f"{TASK}[[variable]]\nname = \"x\"\ninitial = 5\n": [],
    f"{TASK}[[variable]]\nname = \"x\"\nvalue = 5\n": [
        'line 7: variable "x": "value" is ignored: it isn\'t a key of [[variable]]; did you mean "initial"?'],
    f"{TASK}[[timer]]\nname = \"t\"\n": ["line 5: [[timer]] is ignored: software timers aren't simulated"],
    # keys and sections spelled as TOML allows
    f'{TASK}"prio" = 2\n': ['line 5: task "a": "prio" is ignored: it isn\'t a key of [[task]]; did you mean "priority"?'],
    f"{TASK}[limits]\nsteps = 5 # prio = 2\n\t'tics'=3\n": [
        'line 7: [limits]: "tics" is ignored: it isn\'t a key of [limits]; did you mean "ticks"?'],
    f"limits.step = 3\n{TASK}": ['line 1: [limits]: "step" is ignored: it isn\'t a key of [limits]; did you mean "steps"?'],
    f"limits = {{ steps = 3, step = 4 }}\n{TASK}": ['line 1: [limits]: "step" is ignored: it isn\'t a key of [limits]; did you mean "steps"?'],
    f"\n{TASK}[ campain ]\n".replace("\n", "\r\n"): [
        "line 6: [campain] is ignored: there is no such section; did you mean [campaign]?"],
    # what looks like a section or a key, and is a text or a comment
    f'{TASK}[campaign]\npoints = [ # [campain]\n  "0 uart", # prio = 2\n]\n': [],
    f'[[handler]]\nname = "h"\nops = [\n"mark 1", # say "prio = 2" [it]\n# [campain]\n]\n{TASK}': [],
    f"{TASK}[campaign]\npoints = ['all a', \"\"\"\n[campain]\nprio = 2\n\"\"\"]\n": [],
    f"{TASK}[campaign]\npoints = [\"\"\" \"\n]\n[campain]\n\"\"\"]\n": [],
    f'["limits"]\n"steps" = 3\n[[\'queue\']]\n"name"="q"\nlength=3\n{TASK}': [],
    f"limits = {{ steps = 3 }}\n{TASK}": [],
    # no TOML, which the program says
    f"{TASK}[campain\n": [],
    f"{TASK}prio\n": [],
}


def said(lines, name):
    return "".join(f"rtosim: {name}: {it}\n" for it in lines)


@case
def what_is_ignored_is_named_on_standard_error_and_nothing_else_changes(a):
    a.write(f"{a.stand_in}/program", 'echo "<$1>"\ncat "$2"\nexit 1\n')
    a.start()
    for text, lines in SAID.items():
        a.write(f"{a.room}/file.toml", text)
        for command in ("run", "campaign", "explore"):
            status, out, err = a.start(command, "file.toml", cwd=a.room)
            equal((status, out, err), (1, f"{BUILT}<{command}>\n{text}", said(lines, "file.toml")))


IGNORED = f"{TASK}[campain]\n"
LINE = "line 5: [campain] is ignored: there is no such section; did you mean [campaign]?"


@case
def file_is_found_among_the_words(a):
    a.start()
    a.write(f"{a.room}/a file", IGNORED)
    a.write(f"{a.room}/uart", IGNORED.replace("campain", "limit"))
    a.write(f"{a.room}/-x", IGNORED)
    named = [("run", "a file"), ("run", "--at", "2", "--handler", "uart", "a file"), ("run", "a file", "--at=2", "--handler=uart", "--state"),
             ("campaign", "--heads", "--workers", "uart", "--quiet", "a file"), ("campaign", "--only", "uart", "--", "a file"),
             ("explore", "--injections", "2", "a file"), ("explore", "a file", "--handlers", "uart", "--injections=2")]
    for words in named:
        equal(a.start(*words, cwd=a.room)[::2], (0, said([LINE], "a file")))
    equal(a.start("run", "--", "-x", cwd=a.room)[2], said([LINE], "-x"))
    unnamed = [("run",), ("run", "no file"), ("run", "a file", "uart"), ("run", "--at"), ("run", "a file", "--at"), ("run", "--", "a file", "x"),
               ("check", "a file"), ("--help", "a file"), ("a file",), (), ("run", "."), ("run", "--", "--"), ("explain", "run", "a file")]
    for words in unnamed:
        equal(a.start(*words, cwd=a.room)[::2], (0, ""))


@case
def a_file_that_can_be_read_once_alone_is_left_to_the_program(a):
    a.write(f"{a.stand_in}/program", 'cat "$2"')
    a.start()
    equal(a.start("run", "/dev/stdin", input=IGNORED.encode()), (0, BUILT + IGNORED, ""))
    equal(a.start("-c", f'"$0" run <(printf "%s" "$1")', a.launcher, IGNORED, launcher="/bin/bash"), (0, BUILT + IGNORED, ""))
    a.write(f"{a.room}/x", IGNORED)
    with open(f"{a.room}/x", "rb") as file:
        equal(a.start("run", "/dev/stdin", stdin=file), (0, BUILT + IGNORED, said([LINE], "/dev/stdin")))


@case
def a_variable_turns_it_off(a):
    a.start()
    a.write(f"{a.room}/x", IGNORED)
    for value, lines in (("no", []), ("", [LINE]), ("yes", [LINE])):
        equal(a.start("run", "x", cwd=a.room, env={**a.environment, "RTOSIM_WARNINGS": value})[2], said(lines, "x"))


@case
def it_is_named_before_a_build_and_before_a_preview_once(a):
    a.write(f"{a.room}/x", IGNORED)
    for words in (("--preview",), ("--preview-first",), ("--proved",)):
        err = a.start(*words, "run", "x", cwd=a.room)[2]
        equal((err.splitlines()[0] + "\n", err.count("campain")), (said([LINE], "x"), 1))
        a.write("crates/low/src/lib.rt", f"{words}".strip("()',"))


@case
def the_program_is_asked_and_the_key_that_it_knows_is_not_named(a):
    # as a program of a later version: it refuses a number there
    a.write(f"{a.stand_in}/program", 'if grep -q "color. = 0.5" "$2"; then echo "rtosim: 1 BadType: task a" >&2; exit 3; fi\n'
                                     'echo "base: pass in 3 steps, 3 ticks"\n')
    a.write(f"{a.stand_in}/plan", "")
    a.start()
    program = re.sub("(?m)^echo made of .*\n", "", a.read("crates/rtosim/out/rtosim"))
    a.write("crates/rtosim/out/rtosim", program)
    digest = subprocess.run([a.path("bin/built"), "sources"], stdout=subprocess.PIPE, text=True, check=True).stdout.strip()
    subprocess.run([a.path("bin/built"), "record", digest], check=True)
    a.write(f"{a.room}/x", f"{TASK}color = 1\nshade = 2\n")
    equal(a.start("run", "x", cwd=a.room)[2], said(['line 6: task "a": "shade" is ignored: it isn\'t a key of [[task]]'], "x"))


@case
def the_companions_say_it_themselves(a):
    a.write(f"{a.stand_in}/program", 'echo "$RTOSIM_WARNINGS" >>"$STAND_IN/warnings"\nexit 3\n')
    a.start()
    a.write(f"{a.room}/x", IGNORED)
    of = ("--application", "x")
    for words in (("rtosim-check", "x"), ("rtosim-report", "classes", "--failing", *of), ("rtosim-report", "show", "0", *of)):
        a.write(f"{a.stand_in}/warnings", "")
        err = a.start(*words[1:], launcher=a.path(f"bin/{words[0]}"), cwd=a.room)[2]
        equal({*a.read(f"{a.stand_in}/warnings").split()}, {"no"})
        assert f"rtosim: x: {LINE}" not in err, err


@case
def control_characters_reach_no_terminal(a):
    a.start()
    a.write(f"{a.room}/x\x1b", f'{TASK}"\\u001b" = 1\n')
    assert "\x1b" not in a.start("run", "x\x1b", cwd=a.room)[2]


@case
def without_awk_nothing_is_said_and_the_program_runs(a):
    a.start()
    a.write(f"{a.room}/x", IGNORED)
    os.mkdir(f"{a.room}/tools")
    for it in "sh readlink find sort sha256sum cmp mv rm cat tr".split():
        os.symlink(shutil.which(it, path=a.environment["PATH"]), f"{a.room}/tools/{it}")
    equal(a.start("run", "x", cwd=a.room, env={**a.environment, "PATH": f"{a.room}/tools"})[::2], (0, ""))
    os.symlink(shutil.which("awk", path=a.environment["PATH"]), f"{a.room}/tools/awk")
    equal(a.start("run", "x", cwd=a.room, env={**a.environment, "PATH": f"{a.room}/tools"})[::2], (0, ""))


def is_plain(text):
    """Whether a call of awk takes it for one in which nothing is ignored."""
    looked = subprocess.run(["awk", "-f", LOOKS], input=text.encode(), env={**os.environ, "LC_ALL": "C"}, check=False)
    return looked.returncode == 0


@case
def an_application_that_is_taken_for_plain_has_nothing_that_is_ignored(a):
    pieces = ["[[task]]\n", "[limits]\n", "[campaign]\n", "[campain]\n", 'name = "a"\n', "prio = 2\n", "ticks = 3\n", "points = [",
              '"0 a", ', "'0 a'", '"""', "'''", "\\", '"', "'", "]", "\n", "# x\n", "# it's \"\n", " ", "=", "steps", "= 1\n", ",", "{", "}",
              '"prio" = 1\n', "limits.x = 1\n", '[limits]\n"steps" = 1\n', 'script = ["work 3", # y\n', '"work 4"]\n', "\r\n", "\t"]
    dice = random.Random(86)
    seen = set()
    for _ in range(1500):
        text = "".join(dice.choice(pieces) for _ in range(dice.randrange(1, 14)))
        try:
            found = [*ignored.of_document(toml_reader.read_document(text))]
        except toml_reader.NotToml:
            continue
        plain = is_plain(text)
        seen.add((plain, bool(found)))
        assert not (plain and found), (text, [it.message for _, it in found])
    equal(seen, {(True, False), (False, False), (False, True)})


@case
def the_check_s_sections_and_keys_are_plain(a):
    assert is_plain("start = 3\ntickless = true\n")
    for section in formats.SECTIONS.values():
        lines = "".join(f"{it} = {{}}\n" for it in section.keys)
        for value in ("3", "true", '"a b"', "'a b'", "[]", '["work 3", "x # y"]', '[\n  "work 3", # z\n\n  "work 4"\n] # "'):
            assert is_plain(f"{section.header}\n{lines}".replace("{}", value)), (section.header, value)
    for name in sorted(os.listdir(f"{TESTS}/../examples")):
        if name.endswith(".toml"):
            with open(f"{TESTS}/../examples/{name}", encoding="utf-8") as file:
                assert is_plain(file.read()), name


@case
def of_more_than_a_megabyte_the_rest_is_not_looked_at(a):
    a.start()
    many = '[campaign]\npoints = [\n' + '"0 uart",\n' * 110_000 + "]\n"
    a.write(f"{a.room}/x", f"{many}[campain]\n")
    equal(a.start("run", "x", cwd=a.room)[::2], (0, ""))
    a.write(f"{a.room}/x", f"[campain]\n{many}")
    equal(a.start("run", "x", cwd=a.room)[::2], (0, ""))

"""Cases of the launcher: `bin/rtosim --preview` runs an unproved build, says so, and leaves no trace."""
import os
import signal
import subprocess

from cases import case, equal, holds
from checkout import BUILT, PATIENCE, WAIT, is_alive, only_runs, wait_until

NO_ANSWER = "rtosim: the preview gives no answer, for what rt says above"


def bytes_below(folder):
    """The bytes of each file below the folder, and each folder, by its path."""
    found = {}
    for at, folders, files in os.walk(folder):
        found.update({f"{at}/{it}": None for it in folders})
        for it in files:
            with open(f"{at}/{it}", "rb") as file:
                found[f"{at}/{it}"] = file.read()
    return found


def says_that_nothing_is_proved(err):
    """Returns what is said after it."""
    first, second, *rest = err.splitlines()
    holds(first, "rtosim: this is a preview: nothing of it is proved")
    for it in ("60 seconds", "1 MiB"):
        holds(second, it)
    return rest


@case
def a_preview_runs_the_words_and_gives_the_status_and_says_that_nothing_is_proved(a):
    status, out, err = a.start("--preview", "end", "3")
    equal((status, out), (3, BUILT + "<end>\n<3>\n"))
    equal(says_that_nothing_is_proved(err), [])
    equal(a.read(f"{a.stand_in}/calls"), "try --seconds 60 -- end 3\n")
    for status in ("0", "1", "5"):
        equal(a.start("--preview", "end", status)[0], int(status))
    equal(a.start("--preview")[:2], (0, BUILT))
    equal(a.start("--preview", "--preview", "")[1], BUILT + "<--preview>\n<>\n")


@case
def a_preview_shows_what_the_program_says_and_not_what_rt_says_of_it(a):
    a.write(f"{a.stand_in}/program", "echo first >&2\necho last >&2\nexit 2\n")
    status, out, err = a.start("--preview")
    equal((status, out, says_that_nothing_is_proved(err)), (2, BUILT, ["first", "last"]))


@case
def a_preview_leaves_no_trace(a):
    before = bytes_below(a.root)
    a.start("--preview", "x")
    equal((bytes_below(a.root), os.listdir(a.temporary)), (before, []))
    status, _, err = a.start()
    equal((status, a.calls()), (0, 1))
    holds(err, "for the first time")
    before = bytes_below(a.root)
    a.write("crates/low/src/lib.rt", "lower\n")
    equal(a.start("--preview")[1], "made of lower add report text main\n")
    a.write("crates/low/src/lib.rt", "low\n")
    equal((bytes_below(a.root), os.listdir(a.temporary)), (before, []))
    only_runs(a)


@case
def a_preview_compiles_what_is_edited_while_a_program_stands(a):
    a.start()
    a.write("crates/low/src/lib.rt", "lower\n")
    equal(a.start("--preview")[:2], (0, "made of lower add report text main\n"))
    equal(a.calls(), 1)


@case
def a_preview_reads_the_files_that_its_words_name(a):
    a.write(f"{a.stand_in}/program", 'for it; do [ ! -e "$it" ] || cat "$it"; done; ls -A')
    a.write(f"{a.room}/here/below/one.toml", "one\n")
    a.write(f"{a.room}/two.toml", "two\n")
    a.write(f"{a.room}/here/a=b", "three\n")
    a.write(f"{a.room}/here/program", "four\n")
    told = lambda *words: a.start("--preview", *words, cwd=f"{a.room}/here")[1][len(BUILT) :]
    equal(told("below/one.toml"), "one\nbelow\n")
    equal(told("./below/../below/one.toml", "no.toml"), "one\nbelow\n")
    for it in ("../two.toml", f"{a.room}/two.toml"):
        equal(told(it), "two\nrtosim-preview-1\n")
    equal(told("a=b", "program"), "three\nfour\nrtosim-preview-1\nrtosim-preview-2\n")
    equal(told("below", "--below", ".."), "")
    equal(told("a=b", "./below/one.toml", "./below/one.toml", "program"), "three\none\none\nfour\nbelow\nrtosim-preview-1\nrtosim-preview-2\n")


@case
def a_preview_reads_its_standard_input_and_pipes(a):
    a.write(f"{a.stand_in}/program", 'cat "$1"')
    equal(a.start("--preview", "/dev/stdin", input=b"given")[1], BUILT + "given")
    a.write(f"{a.room}/x", "from a file")
    with open(f"{a.room}/x", "rb") as file:
        equal(a.start("--preview", "/dev/stdin", stdin=file)[1], BUILT + "from a file")
    piped = '"$0" --preview <(echo piped)'
    equal(a.start("-c", piped, a.launcher, launcher="/bin/bash")[1], BUILT + "piped\n")


@case
def a_file_of_which_no_copy_can_be_made_is_no_file_that_can_not_be_read(a):
    a.write(f"{a.room}/x", "x" * 9000)
    script = 'ulimit -f 1; exec "$0" "$1" "$2"'
    for word in ("--preview", "--preview-first"):
        how = {"launcher": "/bin/bash", "restore_signals": False}
        status, out, err = a.start("-c", script, a.launcher, word, f"{a.room}/x", **how)
        equal((status, out, a.calls()), (70, "", 0))
        holds(err.splitlines()[-1], "File too large")
    equal(os.listdir(a.temporary), [])


@case
def a_preview_calls_a_file_as_its_user_does(a):
    a.write(f"{a.stand_in}/program", 'echo "no such word: $1" >&2')
    a.write(f"{a.room}/x", "x")
    equal(says_that_nothing_is_proved(a.start("--preview", f"{a.room}/x")[2]), [f"no such word: {a.room}/x"])


def has_no_answer(a, shown, text):
    a.write(f"{a.stand_in}/try", text)
    status, out, err = a.start("--preview", "x")
    equal((status, out), (70, ""))
    equal(says_that_nothing_is_proved(err), [*shown, NO_ANSWER])
    equal(os.listdir(a.temporary), [])


@case
def a_preview_without_an_answer_says_what_rt_says(a):
    last = "run=no-answer runners=0 races=unchecked proved=no"
    lines = ["checked: no-answer: it had not ended after 60 seconds", last]
    has_no_answer(a, lines, f'printf "%s\\n" "{lines[0]}" "{lines[1]}" >&2; echo partly; exit 6\n')
    fault = ["checked: fault: an index out of bounds", "run=fault runners=1 proved=no"]
    has_no_answer(a, fault, f'printf "%s\\n" "{fault[0]}" "{fault[1]}" >&2; exit 4\n')
    has_no_answer(a, ["rt: no such command"], 'echo "rt: no such command" >&2; exit 2\n')
    has_no_answer(a, [], "exit 0\n")


@case
def a_preview_of_code_that_is_refused_shows_where(a):
    said = ("${PWD%/crates/*}/crates/low/src/lib.rt:1:1: error: no", "src/main.rt:2:1: error: no", "./src/main.rt:3:1: error: no")
    places = ("low/src/lib.rt:1:1", "rtosim/src/main.rt:2:1", "rtosim/src/main.rt:3:1")
    says = "".join(f'echo "{it}" >&2\n' for it in said)
    has_no_answer(a, [f"{a.root}/crates/{it}: error: no" for it in places], f"{says}exit 1\n")


@case
def a_signal_ends_a_preview_and_what_it_started(a):
    for number in (signal.SIGTERM, signal.SIGINT):
        a.write(f"{a.stand_in}/try", WAIT)
        started = a.started("--preview", "x")
        wait_until(a.has_begun, "rt was started")
        started.send_signal(number)
        out, _ = started.communicate(timeout=PATIENCE)
        equal((started.returncode, out), (-number, b""))
        pids = a.read(f"{a.stand_in}/pids").split()
        wait_until(lambda: not any(map(is_alive, pids)), "rt and what it started has ended")
        equal(os.listdir(a.temporary), [])
        os.remove(f"{a.stand_in}/waits")


@case
def a_preview_whose_reader_leaves_ends_as_the_program_does(a):
    ours, theirs = os.pipe()
    os.close(ours)
    equal(a.started("--preview", "x", stdout=theirs).wait(timeout=PATIENCE), 141)
    equal(a.started("--preview", "x", stderr=theirs, stdout=subprocess.DEVNULL).wait(timeout=PATIENCE), 0)
    os.close(theirs)
    with open("/dev/full", "wb") as full:
        equal(a.started("--preview", "x", stdout=full).wait(timeout=PATIENCE), 5)


@case
def without_rt_a_preview_says_so(a):
    path = ":".join(it for it in a.environment["PATH"].split(":") if not os.path.exists(f"{it}/rt"))
    status, out, err = a.start("--preview", "x", env={**a.environment, "PATH": path})
    equal((status, out, err), (70, "", "rtosim: a preview compiles the sources, and there is no rt on PATH\n"))

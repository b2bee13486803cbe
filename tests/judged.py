"""Cases of the launcher: what `rt ci` refuses though rattle proves it is refused by bin/rtosim too; and rt proves alone where it is another
than the launcher knows."""
import os
import shutil
import signal

from cases import case, case_named, equal, holds
from checkout import BUILT, NO_PROGRAM, PATIENCE, builds, only_runs, wait_until

REFUSED = "rtosim: there is no program to run, since rt ci refuses its sources"
LONGER = "rtosim: rt alone proves, which takes longer and keeps the proofs: "
IS_NOT_LOOKED_FOR = "so what rt ci refuses is not looked for: "

# What rattle says of a crate that it proves and rt ci refuses: the crate, lines above the last one, words in that, and what is shown.
PROVED_AND_REFUSED = {
    "a function that may hide what its contract says": (
        ("low", "hides low::pick", "hides=1"),
        ("low: hides low::pick", "low: a function on a line"),
    ),
    "a fault of rattle in what it generated": (
        ("low", "note: low.echo.Code is refused", "bugs=1"),
        ("low: note: low.echo.Code", "low: rattle refused"),
    ),
    "a function that may abort": (
        ("report", "", "may-abort=1"),
        ("report: a function takes the bound Abort",),
    ),
    "a function that may wait, where HANDLES has none": (
        ("low", "", "may-wait=1"),
        ("low: it takes handles", "not allow (none): Wait."),
    ),
    "a program that opens sockets": (
        ("rtosim", "", "main=Net"),
        ("rtosim: it takes handles", "not allow (none): Net."),
    ),
    "a C function": (
        ("low", "", "foreign=low::beep"),
        ("low: it declares C functions",),
    ),
    "a word that no verdict may rest on": (
        ("low", "", "guesses=1"),
        ("low: logic=proved functions=2 guesses=1", "low: rattle's last line has a word"),
    ),
    "a term that a tactic chose in a spec": (
        (
            "low",
            "./specs/Low.antt:9:9: warning: `search` has chosen a term of a type that is data, `x`\n"
            "warning: calls of a tactic that chose a term which a contract may read: 1",
            "",
        ),
        ("low: crates/low/specs/Low.antt:9:9: warning: `search` has chosen a term", "low: a tactic chose a term"),
    ),
    "a value that a tactic chose in a proof of a library": (
        ("low", "./proofs/Low.antt:3:5: note: `grind` has chosen a term of a type that is data, `x`", ""),
        ("low: crates/low/proofs/Low.antt:3:5: note: `grind` has chosen", "low: a tactic chose a term"),
    ),
    "a part of a clause that `search` stands in for": (
        ("low", "src/lib.rt:1:2: note: `search` stands in for a part of the clause", ""),
        ("low: crates/low/src/lib.rt:1:2: note: `search` stands in", "low: `search` fills in"),
    ),
    "a pattern that is spelled like a constructor": (
        ("report", "./specs/Report.antt:8:5: warning: this pattern binds a variable spelled like a constructor: `zer0`", ""),
        ("report: crates/report/specs/Report.antt:8:5: warning: this pattern binds", "report: a pattern takes every value"),
    ),
    "an impl that a macro of the repository writes": (
        ("report", "by-macro: low::make blocks=1", ""),
        ("report: by-macro: low::make", "report: a macro of"),
    ),
    "a macro call that writes nothing": (
        ("low", "by-macro: std::write blocks=0", ""),
        ("low: by-macro: std::write", "low: a macro call may hide"),
    ),
}

# Texts that rt ci refuses: a file below crates/, what it has, and what is shown.
REFUSED_TEXTS = {
    "a requires that a proof file gives a closure": (
        "low/proofs/pick/fn/0/Invariants.antt",
        "requires = n ≤ 3\n",
        "this file gives a closure a requires",
    ),
    "a tactic in a clause": (
        "report/src/more.rt",
        "fn f() -> u8\n    ensures { result ≡ ground }\n{ 1 }\n",
        "ground: in a clause or a spec",
    ),
    "an imported tactic": (
        "rtosim/proofs/More.antt",
        "use Prim.{simp}\n",
        "do not import simp from Prim",
    ),
    "another meaning of an operator": (
        "low/specs/More.antt",
        "use Rattle.low.specs.Low.{same as ◌≡◌}\n",
        "a use under the name ◌≡◌",
    ),
    "a macro whose name hides it": (
        "report/src/more.rt",
        "__make! {}\n",
        "__make begins with __",
    ),
    "std by another name": (
        "rtosim/src/more.rt",
        "use std as other;\n",
        "rtosim: it renames std",
    ),
    "a test that nothing runs": (
        "low/src/more.rt",
        "#[test]\n#[ignore]\nfn f() {}\n",
        "low: it has a test that nothing runs",
    ),
    "a name of a handle that HANDLES does not have": (
        "report/src/more.rt",
        "use std::net::TcpListener;\n",
        "report: it names what only the handle Net",
    ),
    "a file that no check reads": (
        "rtosim/specs/more.rt",
        "more\n",
        "no check reads ",
    ),
}


def is_refused(a, *shown):
    """There is no program, since rt ci refuses the sources for what is shown."""
    status, out, err = a.start()
    equal((status, out, err.splitlines()[-1]), (70, "", REFUSED))
    lines = [it for it in err.splitlines() if it.startswith("rtosim: rt ci refuses ")]
    assert len(lines) <= 2, lines
    for it in shown:
        holds("\n".join(lines), it)


def plan(a, crate, notes="", words=""):
    """Sets what rattle says of the crate besides that it is proved."""
    a.write(f"{a.stand_in}/{crate}.notes", notes + "\n" if notes else "")
    a.write(f"{a.stand_in}/{crate}.words", words)


def refuses_what_is_said(said, shown):
    def refuses(a):
        plan(a, *said)
        is_refused(a, *shown)
        a.keep_proofs()
        is_refused(a, *shown)
        plan(a, said[0])
        a.write("crates/low/src/lib.rt", "lower\n")
        equal(builds(a), "made of lower add report text main\n")

    return refuses


def refuses_text(file, text, shown):
    def refuses(a):
        a.write(f"crates/{file}", text)
        is_refused(a, shown)
        a.keep_proofs()
        is_refused(a, shown)
        equal((a.read(f"{a.stand_in}/calls"), a.read(f"{a.stand_in}/said")), ("", ""))
        os.remove(a.path(f"crates/{file}"))
        equal(builds(a), BUILT)

    return refuses


for what, told in PROVED_AND_REFUSED.items():
    case_named(f"proved and refused: {what}", refuses_what_is_said(*told))
for what, told in REFUSED_TEXTS.items():
    case_named(f"refused before it is proved: {what}", refuses_text(*told))


@case
def a_link_among_the_sources_is_refused(a):
    for keep in (lambda: None, a.keep_proofs):
        keep()
        for link, to in (("src/more.rt", "lib.rt"), ("specs", "src")):
            os.symlink(to, a.path(f"crates/low/{link}"))
            is_refused(a, f"crates/low/{link} is a link")
            os.remove(a.path(f"crates/low/{link}"))
    equal(builds(a), BUILT)


@case
def a_pipe_among_the_sources_is_refused(a):
    os.mkfifo(a.path("crates/report/src/pipe"))
    status, _, err = a.start()
    equal(status, 70)
    holds(err, "is a named pipe")
    a.keep_proofs()
    is_refused(a, "crates/report/src/pipe is no plain file or folder")


@case
def a_crate_with_the_name_of_a_library_of_the_toolchain_is_refused(a):
    a.write("crates/tokio/src/lib.rt", "tokio\n")
    a.write("crates.txt", "low:\ntokio:\nreport: low tokio\nrtosim: report\n")
    is_refused(a, "tokio: it has the name of a library of the toolchain")


@case
def a_library_that_reaches_past_the_handles_is_refused(a):
    os.makedirs(f"{a.stand_in}/rlibs/libc.rlib")
    a.write("crates.txt", "low: libc\nreport: low\nrtosim: report\n")
    is_refused(a, "low: crates.txt lists libc or os")
    a.write("HANDLES", "Handles allowed: Net.\n")
    equal(builds(a), BUILT)


@case
def from_nothing_tells_by_its_status_what_was_judged(a):
    def status():
        for it in ("low", "report"):
            shutil.rmtree(a.path(f"crates/{it}/out"), ignore_errors=True)
        proving = a.started("1", launcher=a.path("tools/from_nothing"), cwd=a.path("crates/rtosim"))
        proving.communicate(timeout=PATIENCE)
        return proving.returncode

    equal(status(), 0)
    plan(a, "low", words="hides=1")
    equal(status(), 1)
    plan(a, "low")
    a.write("crates/low/src/more.rt", "use std as other;\n")
    equal(status(), 1)
    os.remove(a.path("crates/low/src/more.rt"))
    a.plan_proofs("exit 3")
    equal(status(), 1)
    a.plan_proofs("exit 2")
    equal(status(), 2)
    os.remove(f"{a.stand_in}/bin/rtlib.py")
    equal(status(), 2)


@case
def a_program_that_calls_what_handles_does_not_allow_is_refused(a):
    a.write(f"{a.stand_in}/reached", "write\npthread_create@GLIBC_2.34\n")
    is_refused(a, "rtosim: it reaches what only the handle Threads gives (pthread_create)")
    a.keep_proofs()
    is_refused(a, "rtosim: it reaches what only the handle Threads gives (pthread_create)")
    a.write("HANDLES", "Handles allowed: Threads.\n")
    equal(builds(a), BUILT)


@case
def what_handles_allows_is_taken_and_no_longer_once_it_does_not(a):
    plan(a, "low", words="may-wait=1")
    plan(a, "rtosim", words="main=Threads+Wait")
    a.write("HANDLES", "Handles allowed: Threads, Wait.\n")
    equal(builds(a), BUILT)
    a.keep_proofs()
    a.write("crates/low/src/lib.rt", "lower\n")
    builds(a)
    plan(a, "rtosim")
    a.write("HANDLES", "Handles allowed: none.\n")
    is_refused(a, "low: it takes handles")
    a.write("HANDLES", "no line\n")
    is_refused(a, "HANDLES is one line")


@case
def what_a_tactic_chose_in_a_proof_of_the_program_is_taken(a):
    plan(a, "rtosim", "./proofs/Main.antt:3:5: note: `grind` has chosen a term of a type that is data, `x`")
    equal(builds(a), BUILT)


@case
def trust_in_kept_proofs_is_taken_where_they_are_kept_alone(a):
    a.write(f"{a.stand_in}/says.sh", a.read(f"{a.stand_in}/says.sh").replace("trusted$2", "trusted incremental=trusted"))
    is_refused(a, "low: rattle's last line has a word")
    a.keep_proofs()
    equal(builds(a), BUILT)


@case
def a_crate_that_is_refused_has_none_above_it_tried_and_leaves_no_program(a):
    plan(a, "low", words="hides=1")
    is_refused(a, "low: a function on a line")
    equal(a.read(f"{a.stand_in}/said"), "low\n")
    a.keep_proofs()
    is_refused(a, "low: a function on a line")
    equal(os.path.exists(a.path("crates/rtosim/out/rtosim")), False)


@case
def what_rt_has_kept_unjudged_is_judged(a):
    a.keep_proofs()
    a.write("crates/low/out/rlib/stamp", "low\n")
    plan(a, "low", words="hides=1")
    for _ in ("as rt left it", "as this command left it"):
        is_refused(a, "low: a function on a line")
    plan(a, "low")
    a.write("crates/rtosim/out/rtosim.stamp", "")
    plan(a, "rtosim", words="bugs=1")
    is_refused(a, "rtosim: rattle refused")


@case
def what_has_been_judged_is_not_said_again(a):
    a.keep_proofs()
    builds(a)
    equal(a.read(f"{a.stand_in}/said").split(), ["low", "report", "report", "rtosim"])
    a.write(f"{a.stand_in}/said", "")
    a.write("crates/rtosim/src/main.rt", "other\n")
    builds(a)
    equal(a.read(f"{a.stand_in}/said").split(), ["report", "rtosim"])
    only_runs(a)


@case
def contracts_that_no_call_can_meet_are_left_to_rt_ci(a):
    builds(a)
    assert "--empty-contracts" not in a.read(f"{a.stand_in}/calls")


@case
def a_signal_ends_the_judging(a):
    a.keep_proofs()
    a.write(f"{a.stand_in}/help", ': >"$STAND_IN/waits"; until [ -e "$STAND_IN/go" ]; do sleep 0.02; done\n')
    started = a.started()
    wait_until(a.has_begun, "rattle is asked")
    started.terminate()
    wait_until(lambda: started.poll() is not None, "it has ended")
    equal((started.returncode, a.calls()), (-signal.SIGTERM, 0))
    started.communicate()
    a.go()
    equal(builds(a), BUILT)


def change_kit(a, file, *changes):
    text = a.read(f"{a.stand_in}/bin/{file}")
    for old, new in changes:
        equal(text.count(old) > 0, True)
        text = text.replace(old, new)
    a.write(f"{a.stand_in}/bin/{file}", text)


def is_proved_by_rt_alone(a, why):
    """rt proves, from nothing and then over what it has kept, and it is said that nothing is judged, and why."""
    for is_kept in (False, True):
        calls = len(a.read(f"{a.stand_in}/calls").splitlines())
        status, out, err = a.start()
        equal((status, out), (0, BUILT))
        equal([it.split()[0] for it in a.read(f"{a.stand_in}/calls").splitlines()[calls:]], ["all", "run"])
        said = err.splitlines()[1:]
        if not is_kept:
            holds(said.pop(0), f"{LONGER}rt is another than tools/from_nothing knows: {why}")
        holds(said[0], f"{IS_NOT_LOOKED_FOR}{why}")
        only_runs(a)
        a.keep_proofs()
        os.remove(a.path("crates/rtosim/out/rtosim"))


@case
def rt_without_its_library_proves_alone(a):
    os.remove(f"{a.stand_in}/bin/rtlib.py")
    is_proved_by_rt_alone(a, "FileNotFoundError")


@case
def rt_that_is_no_python_proves_alone(a):
    a.write(f"{a.stand_in}/bin/rt", '#!/bin/sh\nexec sh "$STAND_IN/rt.sh" "$@"\n')
    is_proved_by_rt_alone(a, "SyntaxError")


@case
def rt_without_a_part_proves_alone(a):
    change_kit(a, "rtlib.py", ("chose_a_term", "has_chosen"))
    is_proved_by_rt_alone(a, "AttributeError: module 'rtlib' has no attribute 'chose_a_term'")


@case
def rt_with_a_part_that_takes_other_words_proves_alone(a):
    change_kit(a, "rtlib.py", ("def below(self):", "def below(self, order):"))
    is_proved_by_rt_alone(a, "TypeError: ")


@case
def rt_that_gives_rattle_s_words_otherwise_proves_alone_and_is_judged(a):
    change_kit(a, "rtlib.py", ("def words(self, flags, tests=False, keeps=True", "def words(self, flags, tests=False, keep=True"))
    status, out, err = a.start()
    equal((status, out), (0, BUILT))
    holds(err, f"{LONGER}rt is another than tools/from_nothing knows: TypeError: ")
    assert IS_NOT_LOOKED_FOR not in err, err


@case
def rt_that_ends_where_it_is_asked_proves_alone(a):
    change_kit(a, "rt", ("def handles_of(root):\n", "def handles_of(root):\n    sys.exit(2)\n"))
    is_proved_by_rt_alone(a, "SystemExit: 2")


@case
def rt_that_judges_otherwise_proves_alone(a):
    for file, old, new in (("rt", 'if "hides" in said:', "if False:"), ("rtlib.py", "^logic=proved", "^logic=sound")):
        before = a.read(f"{a.stand_in}/bin/{file}")
        change_kit(a, file, (old, new))
        if file == "rt":
            change_kit(a, file, ('NOT_HERE = ("foreign", "hides", ', 'NOT_HERE = ("foreign", '))
        status, out, err = a.start()
        equal((status, out), (0, BUILT))
        holds(err, f"{IS_NOT_LOOKED_FOR}it judges the last line of a proof otherwise\n")
        a.write(f"{a.stand_in}/bin/{file}", before)
        a.write("crates/low/src/lib.rt", "lower\n")
        builds(a)
        a.write("crates/low/src/lib.rt", "low\n")


@case
def where_rattle_does_not_take_rt_s_words_rt_proves_alone_and_is_judged(a):
    a.write(f"{a.stand_in}/bin/rattle", '#!/bin/sh\necho "error: unexpected argument --statements found"\nexit 2\n')
    status, out, err = a.start()
    equal((status, out), (0, BUILT))
    holds(err, f"{LONGER}error: unexpected argument --statements found\n")
    assert IS_NOT_LOOKED_FOR not in err, err
    plan(a, "report", words="hides=1")
    a.write("crates/low/src/lib.rt", "lower\n")
    is_refused(a, "report: a function on a line")


@case
def where_the_program_is_not_linked_as_rt_does_rt_proves_alone_and_is_judged(a):
    links = f"{a.stand_in}/bin/rattle-link"
    missing, other = lambda: os.remove(links), lambda: a.write(links, "#!/bin/sh\necho unknown flag\nexit 1\n")
    for change, why in ((other, "unknown flag"), (missing, "rt is another than tools/from_nothing knows: FileNotFoundError: ")):
        change()
        status, out, err = a.start()
        equal((status, out), (0, BUILT))
        holds(err, f"{LONGER}{why}")
        assert IS_NOT_LOOKED_FOR not in err, err
        os.remove(a.path("crates/rtosim/out/rtosim"))


@case
def code_that_rattle_does_not_take_is_refused_and_rt_is_not_tried(a):
    a.plan_proofs('echo "src/lib.rt:3:1: error[unsupported-theorem]: not yet"; exit 2')
    status, _, err = a.start()
    equal((status, err.splitlines()[-1]), (70, NO_PROGRAM))
    holds(err, "rtosim: crates/report/src/lib.rt:3:1: error[unsupported-theorem]")
    assert "all check" not in a.read(f"{a.stand_in}/calls"), "rt is tried too"


@case
def where_rt_says_nothing_that_can_be_judged_that_is_said(a):
    a.keep_proofs()
    a.write(f"{a.stand_in}/says.sh", a.read(f"{a.stand_in}/says.sh").replace("echo \"crate $1:", "echo \"a crate $1:"))
    status, out, err = a.start()
    equal((status, out), (0, BUILT))
    holds(err, f"{IS_NOT_LOOKED_FOR}it says nothing of the proof of low\n")


@case
def what_rt_alone_does_not_prove_is_refused_as_ever(a):
    os.remove(f"{a.stand_in}/bin/rtlib.py")
    a.plan_proofs('echo "src/main.rt:3:1: error: no" >&2; exit 1')
    status, _, err = a.start()
    equal((status, err.splitlines()[-2:]), (70, ["rtosim: crates/rtosim/src/main.rt:3:1: error: no", NO_PROGRAM]))

"""A copy of the launcher over a few files in the place of the crates, with a stand-in for the kit, and what tests look at in it.

As a module the stand-in for rt is the kit's own, by whose functions the launcher judges what the stand-ins say."""
import os
import re
import shutil
import subprocess
import sys
import time

from cases import equal

TESTS = os.path.dirname(os.path.realpath(__file__))
KIT = os.path.dirname(os.path.dirname(os.path.realpath(shutil.which("rt") or "rt")))
PATIENCE = 60

# The stand-in for rt: sh carries out rt.sh, and Python, to which that line is a text, goes on with the kit's rt.
RT = """#!/bin/sh
''''exec sh "$STAND_IN/rt.sh" "$@" #'''
"""
# It notes the call and does what the case plans for it: the proofs, or the build of a program that prints what it is made of. Of a
# library that has its stamp it says nothing, except for the last one, which it checks and doesn't build.
RT_SH = r"""
. "$STAND_IN/says.sh"
[ "$1" != version ] || { cat "$STAND_IN/version"; exit; }
echo "$*" >>"$STAND_IN/calls"
if [ "$1" = try ]; then
    . "$STAND_IN/try"
    exit
fi
build() {
    cat ../$1/src/*.rt | cmp -s - ../$1/out/rlib/stamp && return
    rm -rf ../$1/out/rlib
    mkdir -p ../$1/out/rlib
    says $1 " incremental=trusted"
    cat ../$1/src/*.rt >../$1/out/rlib/stamp
}
if [ "$1" = all ]; then
    . "$STAND_IN/proofs"
    echo "only=0 proved=0"
    echo "== low"
    build low
    echo "== report"
    says report " incremental=trusted"
    echo "== summary"
    echo "2 of 2 crates ok"
    exit
fi
build report >&2
. "$STAND_IN/plan"
[ -e out/rtosim.stamp ] || says rtosim " incremental=trusted" >&2
make_program
: >out/rtosim.stamp
"""
# The stand-in for rattle, which proves a crate: the library report as the case plans for the proofs, the others as it plans for the
# lowest, and the program as rt does.
RATTLE = r"""#!/bin/sh
. "$STAND_IN/says.sh"
if [ "$2" = --help ]; then
    . "$STAND_IN/help"
    echo "Prim.{search} --empty-contracts"
    exit
fi
echo "$*" >>"$STAND_IN/calls"
for it; do made=$it; done
case $3 in
report) . "$STAND_IN/proofs" ;;
rtosim) . "$STAND_IN/plan"
    make_program ;;
*) . "$STAND_IN/lowest" ;;
esac
[ $3 = rtosim ] || { mkdir -p "$made" && echo $3 >"$made/format"; }
says $3
"""
# What the stand-in for `rt try` does: it runs the program in a folder of its own, which has copies of the files that it is given.
TRY = r"""
make_program
made=$PWD/out/rtosim
folder=$(mktemp -d)
shift
while [ "$1" != -- ]; do
    if [ "$1" = --data ]; then
        name=$folder/${2%%=*}
        mkdir -p "${name%/*}"
        cp "${2#*=}" "$name"
    fi
    shift 2
done
shift
(cd "$folder" && "$made" "$@")
status=$?
rm -r "$folder"
echo "checked: ended status=$status" >&2
echo "races: not looked for" >&2
echo "run=ended status=$status runners=1 races=unchecked proved=no" >&2
exit $status
"""
# What rattle says of a crate that it proves, with the notes and the words that the case plans for the crate.
SAYS = r"""
says() {
    echo $1 >>"$STAND_IN/said"
    echo "so far: 1 of 2 functions checked"
    [ ! -e "$STAND_IN/$1.notes" ] || cat "$STAND_IN/$1.notes"
    echo "fn $1::new: proved"
    echo "./proofs/new/Answers.antt:16:6: note: large solution: giving it yourself may make this much cheaper to check"
    echo "crate $1: modules loaded=1 checked=1"
    words=$([ ! -e "$STAND_IN/$1.words" ] || cat "$STAND_IN/$1.words")
    trusted="logic-built=trusted libraries-built=trusted statements=trusted$2"
    echo "logic=proved functions=2${words:+ $words} sum=dac8208d650f15bf native=nat,char,string $trusted"
}
make_program() {
    mkdir -p out
    {
        printf '#!/bin/sh\necho made of %s\n' "$(cat ../*/src/*.rt | tr '\n' ' ')"
        cat "$STAND_IN/program"
    } >out/new
    chmod +x out/new
    mv out/new out/rtosim
}
"""
# The stand-in for the reader of what a program calls of the system.
READER_OF_CALLS = '#!/bin/sh\n[ ! -e "$STAND_IN/reached" ] || cat "$STAND_IN/reached"\n'
WAIT = r"""echo $$ >"$STAND_IN/pids"
(until [ -e "$STAND_IN/go" ]; do sleep 0.02; done) &
echo $! >>"$STAND_IN/pids"
: >"$STAND_IN/waits"
wait
"""
# Writes on and on until the file go is there.
WRITES = r"""(until [ -e "$STAND_IN/go" ]; do touch "$CHECKOUT/crates/low/src/lib.rt"; sleep 0.02; done) >"$STAND_IN/writes" 2>&1 &
"""
# What the program does then.
PROGRAM = r"""for it; do printf '<%s>\n' "$it"; done
[ "${1-}" != end ] || exit "$2"
[ "${1-}" != cat ] || cat
"""


def wait_until(holds, what):
    deadline = time.monotonic() + PATIENCE
    while not holds():
        if time.monotonic() > deadline:
            raise AssertionError(f"not within {PATIENCE} seconds: {what}")
        time.sleep(0.01)


def is_alive(pid):
    try:
        with open(f"/proc/{pid}/stat") as it:
            return it.read().rpartition(")")[2].split()[0] != "Z"
    except OSError:
        return False


def stand_ins():
    """The text of each file of the kit's stand-in."""
    with open(f"{KIT}/bin/rt", encoding="utf-8") as rt, open(f"{KIT}/bin/rtlib.py", encoding="utf-8") as rtlib:
        tools = {"rt": RT + rt.read(), "rtlib.py": rtlib.read(), "rattle": RATTLE, "rattle-link": "#!/bin/sh\n"}
    plans = {"rt.sh": RT_SH, "says.sh": SAYS, "program": PROGRAM, "try": TRY, "version": f"{VERSION}\n"}
    # (what is in the kit, by which rt knows it)
    kit = {"WHAT": "a stand-in\n"}
    plans.update(dict.fromkeys(("plan", "proofs", "lowest", "help", "calls", "said"), ""))
    prelude = {"rattle/std/specs/Prelude.antt": "pub use mathlib.Core.Path.{◌≡◌}\n"}
    return {**{f"bin/{it}": text for it, text in tools.items()}, "toolchain/bin/clang": READER_OF_CALLS, **plans, **prelude, **kit}


class Checkout:
    """A copy of the launcher with a few sources, and a stand-in for the kit on PATH."""

    def __init__(self, room):
        self.room, self.root, self.stand_in = room, f"{room}/a checkout", f"{room}/stand-in"
        self.temporary = f"{room}/tmp"
        for it in (self.stand_in, self.temporary):
            os.mkdir(it)
        for it in ("bin", "tools"):
            shutil.copytree(f"{TESTS}/../{it}", f"{self.root}/{it}")
        self.write("crates.txt", "low:\nreport: low\nrtosim: report\n")
        self.write("HANDLES", "Handles allowed: none.\n")
        self.write("crates/low/src/lib.rt", "low\n")
        self.write("crates/report/src/lib.rt", "report\n")
        self.write("crates/report/src/text.rt", "text\n")
        self.write("crates/report/src/add.rt", "add\n")
        self.write("crates/rtosim/src/main.rt", "main\n")
        self.write("docs/GUIDE.md", "a guide\n")
        for name, text in stand_ins().items():
            self.write(f"{self.stand_in}/{name}", text)
            if "bin/" in name:
                os.chmod(f"{self.stand_in}/{name}", 0o755)
        # (before the rest the folder of this very Python: what has its name elsewhere may take long to start)
        folders = [self.stand_in, f"{self.stand_in}/bin", os.path.dirname(os.path.realpath(sys.executable))]
        path = ":".join([*folders, os.environ["PATH"]])
        own = {"PATH": path, "STAND_IN": self.stand_in, "CHECKOUT": self.root, "TMPDIR": self.temporary, "LC_ALL": "C"}
        self.environment = {**os.environ, **own}
        self.launcher = f"{self.root}/bin/rtosim"

    def path(self, name):
        return os.path.join(self.root, name)

    def write(self, name, text):
        os.makedirs(os.path.dirname(self.path(name)), exist_ok=True)
        with open(self.path(name), "w", encoding="utf-8") as it:
            it.write(text)

    def read(self, name):
        with open(self.path(name), encoding="utf-8") as it:
            return it.read()

    def plan(self, text):
        """Sets what the stand-in does before it builds the program."""
        self.write(f"{self.stand_in}/plan", text)

    def plan_proofs(self, text):
        """Sets what the stand-in does in place of the proofs."""
        self.write(f"{self.stand_in}/proofs", text)

    def plan_words_of(self, log, status):
        """Has the stand-in say what rt once said of the crate report in a copy, and end with the status."""
        copy = self.path(COPY)
        self.write(f"{self.stand_in}/log", self.read(f"{TESTS}/rt_says/{log}").replace("ROOT", copy))
        self.plan_proofs(f'cat "$STAND_IN/log" >&2; exit {status}')

    def plan_wait(self):
        """Has the stand-in wait until the file go is there, in a process of its own, and note both processes."""
        self.plan(WAIT)

    def started(self, *words, **how):
        streams = {"stdin": subprocess.DEVNULL, "stdout": subprocess.PIPE, "stderr": subprocess.PIPE}
        how = {**streams, "env": self.environment, **how}
        return subprocess.Popen([how.pop("launcher", self.launcher), *words], **how)

    def start(self, *words, **how):
        """Runs the launcher, and returns its status and what it wrote to its two streams."""
        given = how.pop("input", None)
        started = self.started(*words, **({"stdin": subprocess.PIPE} if given is not None else {}), **how)
        out, err = started.communicate(given, timeout=PATIENCE)
        return started.returncode, out.decode(errors="surrogateescape"), err.decode(errors="surrogateescape")

    def keep_proofs(self):
        """Has proofs of a library be kept."""
        os.makedirs(self.path("crates/low/out/incremental"), exist_ok=True)

    def calls(self):
        """How often the crates were to be proved."""
        return len(re.findall("(?m)^(?:build --crate-name low .*|all check --jobs [0-9]+)$", self.read(f"{self.stand_in}/calls")))

    def has_begun(self):
        return os.path.exists(f"{self.stand_in}/waits")

    def go(self):
        self.write(f"{self.stand_in}/go", "")


def only_runs(checkout):
    """The program runs, and rt isn't called. Returns the program's output."""
    before = checkout.calls()
    status, out, err = checkout.start()
    equal((status, err, checkout.calls()), (0, "", before))
    return out


def builds(checkout):
    """The program is built and runs. Returns its output."""
    before = checkout.calls()
    status, out, _ = checkout.start()
    equal((status, checkout.calls()), (0, before + 1))
    return out


def keep_times(checkout):
    """Has the next start judge by times, which those of the last second are not fit for."""

    def are_kept():
        time.sleep(1.1)
        only_runs(checkout)
        return os.path.exists(checkout.path("crates/rtosim/out/rtosim.times"))

    wait_until(are_kept, "times are kept")


COPY = "crates/rtosim/out/rlib/copy"
BUILT = "made of low add report text main\n"
VERSION = "a stand-in for the kit"
NO_PROGRAM = "rtosim: there is no program to run, since rt did not prove and build it"

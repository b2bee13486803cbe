"""Cases of the built program: how much of the stack it takes."""
import ctypes
import resource
import subprocess

from cases import Skipped, case, equal
from failures import campaign_of, many_events, many_states
from running import run, write

ADDR_NO_RANDOMIZE = 0x0040000


def with_stack(kilobytes, *words):
    """The status of the program with this much stack, which begins at the same address each time."""
    def fixed():
        if ctypes.CDLL(None).personality(ADDR_NO_RANDOMIZE) < 0:
            raise OSError("addresses are random")
        resource.setrlimit(resource.RLIMIT_STACK, (kilobytes << 10, kilobytes << 10))
    try:
        return run(*words, preexec_fn=fixed)[0]
    except subprocess.SubprocessError as error:
        raise Skipped("the system gives each start another address of the stack") from error


def least_stack(status, *words):
    """With how many kilobytes of stack at least, in pages, the program ends with this status."""
    low, high = 8, 4096
    equal(with_stack(high, *words), status)
    while high - low > 4:
        middle = (low + high) // 8 * 4
        low, high = (low, middle) if with_stack(middle, *words) == status else (middle, high)
    return high


@case
def no_job_takes_more_stack_than_it_takes_at_the_start():
    """Where it grew later, and no memory was left, the system would end the program."""
    (text, _), (states, _) = many_events(), many_states()
    for path, content in {"campaign.toml": campaign_of(3000), "events.toml": text, "states.toml": states}.items():
        write(path, content)
    equal(least_stack(0, "campaign", "campaign.toml"), least_stack(3, "campaign", "not there"))
    equal(least_stack(0, "explore", "states.toml"), least_stack(3, "explore", "not there"))
    for path, options in (("events.toml", []), ("events.toml", ["--state"]), ("campaign.toml", ["--at", "0", "--handler", "h"])):
        equal(least_stack(0, "run", path, *options), least_stack(3, "run", "not there", *options))

"""What of FreeRTOS isn't simulated, by the words for it, and what represents it; and calls for which a handler needs no op."""
from __future__ import annotations

from typing import Dict, Optional, Tuple

# By the beginnings of the words for it, in small letters and without `_`. The first that fits counts.
NOT_SIMULATED_OPS = {
    "notifications of another index than 0": (
        "xtasknotifyindexed", "xtasknotifygiveindexed", "vtasknotifygiveindexed", "ultasknotifytakeindexed", "xtasknotifywaitindexed",
        "xtasknotifystateclearindexed", "ultasknotifyvalueclearindexed"),
    "notifications that return the value before": ("xtasknotifyandquery",),
    "software timers": ("xtimer", "vtimer", "uxtimer", "pvtimer", "pctimer", "timer", "starttimer", "stoptimer", "resettimer", "ostimer"),
    "stream and message buffers": (
        "xstreambuffer", "vstreambuffer", "streambuffer", "xmessagebuffer", "vmessagebuffer", "messagebuffer"),
    "queue sets": ("xqueuecreateset", "xqueueaddtoset", "xqueueselectfromset", "xqueueremovefromset", "queueset"),
    "recursive mutexes": (
        "xsemaphorecreaterecursive", "xsemaphoretakerecursive", "xsemaphoregiverecursive", "lockrecursive", "unlockrecursive"),
    "co-routines": ("xcoroutine", "vcoroutine", "crdelay", "crqueue", "crstart", "crend"),
    "priorities that change": ("vtaskpriorityset", "setpriority", "priorityset", "osthreadsetpriority"),
    "tasks that are created or deleted at run time": (
        "xtaskcreate", "vtaskdelete", "createtask", "deletetask", "osthreadnew", "osthreadterminate", "osthreadexit"),
    "objects that are created or deleted at run time": (
        "xqueuecreate", "vqueuedelete", "vqueueaddtoregistry", "vqueueunregister", "xsemaphorecreate", "vsemaphorecreate", "vsemaphoredelete",
        "xeventgroupcreate", "veventgroupdelete", "osmutexnew", "osmutexdelete", "ossemaphorenew", "ossemaphoredelete", "osmessagequeuenew",
        "osmessagequeuedelete", "oseventflagsnew", "oseventflagsdelete"),
    "calls that end the wait of another task": ("xtaskabortdelay", "abortdelay"),
    "calls that empty a queue": ("xqueuereset", "resetqueue", "queuereset", "osmessagequeuereset"),
    "calls that set bits and wait for others": ("xeventgroupsync",),
    "calls that read a semaphore's count or a mutex's holder": (
        "uxsemaphoregetcount", "xsemaphoregetmutexholder", "ossemaphoregetcount", "osmutexgetowner"),
    "calls that ask about tasks or the scheduler": (
        "uxtaskpriorityget", "etaskgetstate", "xtaskgetcurrenttaskhandle", "xtaskgetschedulerstate", "uxtaskgetnumberoftasks", "pctaskgetname",
        "xtaskgethandle", "vtaskgetinfo", "vtasklist", "uxtaskgetstackhighwatermark", "uxtaskgetsystemstate", "vtaskgetruntimestats",
        "ultaskget", "xtaskgetidletaskhandle", "osthreadget", "oskernelgetstate"),
    "hooks, task tags and thread-local storage": (
        "vtasksetapplicationtasktag", "xtaskgetapplicationtasktag", "xtaskcallapplicationtaskhook", "pvtaskgetthreadlocal",
        "vtasksetthreadlocal"),
    "time-out structures": ("vtasksettimeoutstate", "xtaskcheckfortimeout"),
    "corrections of the tick count": ("vtasksteptick", "xtaskcatchupticks"),
    "the start and the end of the scheduler": ("vtaskstartscheduler", "vtaskendscheduler", "oskernelstart", "oskernelinitialize"),
    "interrupt priorities": ("nvicsetpriority", "halnvicsetpriority"),
    "memory pools": ("osmemorypool", "pvportmalloc", "vportfree", "malloc"),
}
# Of sections the same.
NOT_SIMULATED_SECTIONS = {
    "software timers": ("timer",),
    "stream and message buffers": ("stream", "messagebuffer", "message_buffer"), "queue sets": ("queueset", "queue_set"),
    "recursive mutexes": ("recursive",), "more than one core": ("core",), "co-routines": ("coroutine", "co_routine"),
    "memory pools": ("memorypool", "pool"),
}
# Of what is simulated and has no section, by the beginning of the word, what it is a part of.
WITHOUT_SECTION = {"notif": "each task has a notification of its own, which needs no section: the ops notify, notify_take and notify_wait use it"}
IN_ITS_PLACE = {
    "notifications of another index than 0": "each task has one notification, and notify and notify_wait use it",
    "notifications that return the value before": "the notified task gets the value from its notify_wait",
    "software timers": "a [[handler]] at an [[interrupt]], or an endless task with delay_until, represents one",
    "recursive mutexes": "only the first lock and the last unlock of a task change something: leave out the others",
    "tasks that are created or deleted at run time": "a [[task]] is there from the start, and may begin with a take or a wait",
    "objects that are created or deleted at run time": "a [[queue]], [[binary]], [[counting]], [[mutex]] or [[group]] is there from the start",
    "calls that empty a queue": "receive with a timeout of 0, in a loop that ends if none, empties one",
    "calls that set bits and wait for others": "set, and then wait with all, do it in two calls",
    "calls that read a semaphore's count or a mutex's holder": "a [[variable]] can be stored beside each give and take",
    "time-out structures": "stamp and since measure how long something took",
    "corrections of the tick count": "tickless = true lets idle pass all ticks up to the next event",
    "the start and the end of the scheduler": "a run begins with all tasks Ready",
    "interrupt priorities": "an interrupt comes between two steps, and none interrupts another",
    "memory pools": "a [[queue]] of free buffers represents one, as in examples/drivers/pool.toml",
}
# Calls of handlers for which they need no op, and why.
NEEDLESS = dict.fromkeys(("portyieldfromisr", "portendswitchingisr"), "a handler that wakes a task of a higher priority switches to it by itself")


def plain(word: str) -> str:
    return word.lower().replace("_", "")


def why_needless(word: str) -> Optional[str]:
    """Why a handler needs no op for a call; None for any other word."""
    return NEEDLESS.get(plain(word))


def not_simulated(word: str, table: Dict[str, Tuple[str, ...]]) -> Optional[str]:
    """What of FreeRTOS isn't simulated that a word or a section is about; None if it is about nothing of that kind."""
    return next((what for what, starts in table.items() if plain(word).startswith(tuple(map(plain, starts)))), None)


def not_simulated_rule(what: str) -> str:
    return "; ".join(it for it in ("docs/KERNEL.md names what is left out", IN_ITS_PLACE.get(what)) if it)

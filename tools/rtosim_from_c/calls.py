"""The table of calls: the op that each one makes, who may make it, and what to write in place of a call that has none."""
import enum
from dataclasses import dataclass
from typing import Dict, Optional, Tuple

from .families import Family


class Argument(enum.Enum):
    """What an argument of a call is, and so how it is read. The names of the first ones may come in an op."""

    QUEUE = "a queue"
    SEMAPHORE = "a semaphore or a mutex"
    GROUP = "an event group"
    TASK = "a task"
    TASK_OR_CALLER = "a task, or NULL for the caller"
    ITEM = "the address of an item"
    NUMBER = "a number"
    MARK = "the number of a mark"
    TICKS = "a number of ticks"
    WAIT = "a number of ticks, or portMAX_DELAY"
    MASK = "bits"
    CLEARS = "pdTRUE if the wait clears its bits"
    ALL = "pdTRUE if the wait is for all bits"
    TAKES = "pdTRUE if the take clears the value"
    ACTION = "an action of eNotifyAction"
    VALUE = "a number from 0 to 4294967295"
    BITS = "bits, a number from 0 to 4294967295"
    BITS_AFTER = "bits that are cleared after the wait"
    STORAGE = "the address of a local, for what is received"
    VALUE_STORAGE = "the address of a local, for the value, or NULL"
    WAKE_TIME = "the address of the local that has the wake time"
    WOKEN = "the address of a local, or NULL"
    CALLER = "NULL, for the caller"

    @property
    def word(self) -> str:
        """Its name in an op."""
        return "task" if self is Argument.TASK_OR_CALLER else self.name.lower()


class Who(enum.Enum):
    """Whose call it is."""

    TASK = "task"
    HANDLER = "handler"
    BOTH = "both"


class Answer(enum.Enum):
    """Which answers the op has; `forever` leaves out that it fails."""

    UNCHANGED = "no answer"
    SUCCESS = "1, or 0"
    ONE = "1"
    ZERO = "0"
    ITEM = "the item, or none"
    COUNT = "how many items"
    SET_BITS = "bits of the group"
    NUMBER = "a number"
    MARK = "the number of a mark"
    NOTIFIED = "1, or 0 if a value that is kept was pending"
    VALUE_OR_NONE = "the value of a notification, or none"


class Result(enum.Enum):
    """What the function returns in C, by the op's answer."""

    VOID = "nothing"
    ANSWER = "the answer"
    RECEIVED = "pdTRUE, or pdFALSE for none"
    OTHER = "another value than the op's answer"


@dataclass(frozen=True)
class Call:
    """A function of FreeRTOS and its op. In `op` the words in braces are the arguments."""

    function: str
    op: str
    arguments: Tuple[Argument, ...]
    answer: Answer
    result: Result
    who: Who = Who.TASK
    family: Family = Family.CALLS
    of_mutex: Optional[str] = None
    instead: str = ""


A = Argument
SENT = (A.QUEUE, A.ITEM, A.WAIT)
SENT_BY_HANDLER = (A.QUEUE, A.ITEM, A.WOKEN)
RECEIVED = (A.QUEUE, A.STORAGE, A.WAIT)
A_SEMAPHORE = "a binary semaphore (xSemaphoreCreateBinary, xSemaphoreGive, xSemaphoreTake), or a counting one to count"
A_HOLD = (
    "vTaskSuspendAll() and xTaskResumeAll(), to keep other tasks out; to keep an interrupt out, leave the call out and judge "
    "the moments that fail inside"
)


def sends(function: str, op: str, *arguments: Argument, who: Who = Who.TASK) -> Call:
    return Call(function, op, arguments, Answer.SUCCESS, Result.ANSWER, who)


def notifies(function: str, op: str, *arguments: Argument, who: Who = Who.TASK, answer: Answer = Answer.NOTIFIED,
             result: Result = Result.ANSWER) -> Call:
    return Call(function, op, arguments, answer, result, who, Family.NOTIFICATIONS, instead=A_SEMAPHORE)


def critical(function: str, op: str) -> Call:
    return Call(function, op, (), Answer.UNCHANGED, Result.VOID, Who.TASK, Family.CRITICAL, instead=A_HOLD)


OF_QUEUES = (
    sends("xQueueSend", "send {queue} {item} {wait}", *SENT),
    sends("xQueueSendToBack", "send {queue} {item} {wait}", *SENT),
    sends("xQueueSendToFront", "send_front {queue} {item} {wait}", *SENT),
    Call("xQueueOverwrite", "overwrite {queue} {item}", (A.QUEUE, A.ITEM), Answer.ONE, Result.ANSWER),
    Call("xQueueReceive", "receive {queue} {wait}", RECEIVED, Answer.ITEM, Result.RECEIVED),
    Call("xQueuePeek", "peek {queue} {wait}", RECEIVED, Answer.ITEM, Result.RECEIVED),
    Call("uxQueueMessagesWaiting", "waiting {queue}", (A.QUEUE,), Answer.COUNT, Result.ANSWER),
    Call("uxQueueSpacesAvailable", "spaces {queue}", (A.QUEUE,), Answer.COUNT, Result.ANSWER),
    sends("xQueueSendFromISR", "send {queue} {item}", *SENT_BY_HANDLER, who=Who.HANDLER),
    sends("xQueueSendToBackFromISR", "send {queue} {item}", *SENT_BY_HANDLER, who=Who.HANDLER),
    sends("xQueueSendToFrontFromISR", "send_front {queue} {item}", *SENT_BY_HANDLER, who=Who.HANDLER),
    Call("xQueueOverwriteFromISR", "overwrite {queue} {item}", SENT_BY_HANDLER, Answer.ONE, Result.ANSWER, Who.HANDLER),
    Call("xQueueReceiveFromISR", "receive {queue}", (A.QUEUE, A.STORAGE, A.WOKEN), Answer.ITEM, Result.RECEIVED, Who.HANDLER),
    Call("xQueuePeekFromISR", "peek {queue}", (A.QUEUE, A.STORAGE), Answer.ITEM, Result.RECEIVED, Who.HANDLER),
)

OF_SEMAPHORES = (
    Call("xSemaphoreTake", "take {semaphore} {wait}", (A.SEMAPHORE, A.WAIT), Answer.SUCCESS, Result.ANSWER,
         of_mutex="lock {semaphore} {wait}"),
    Call("xSemaphoreGive", "give {semaphore}", (A.SEMAPHORE,), Answer.SUCCESS, Result.ANSWER, of_mutex="unlock {semaphore}"),
    Call("xSemaphoreGiveFromISR", "give {semaphore}", (A.SEMAPHORE, A.WOKEN), Answer.SUCCESS, Result.ANSWER, Who.HANDLER),
)

OF_GROUPS = (
    Call("xEventGroupSetBits", "set {group} {mask}", (A.GROUP, A.MASK), Answer.SET_BITS, Result.ANSWER),
    Call("xEventGroupClearBits", "clear {group} {mask}", (A.GROUP, A.MASK), Answer.SET_BITS, Result.ANSWER),
    Call("xEventGroupGetBits", "bits {group}", (A.GROUP,), Answer.SET_BITS, Result.ANSWER),
    Call("xEventGroupWaitBits", "wait {group} {mask} {all} {clears} {wait}", (A.GROUP, A.MASK, A.CLEARS, A.ALL, A.WAIT),
         Answer.SET_BITS, Result.ANSWER),
    sends("xEventGroupSetBitsFromISR", "set {group} {mask}", A.GROUP, A.MASK, A.WOKEN, who=Who.HANDLER),
    sends("xEventGroupClearBitsFromISR", "clear {group} {mask}", A.GROUP, A.MASK, who=Who.HANDLER),
    Call("xEventGroupGetBitsFromISR", "bits {group}", (A.GROUP,), Answer.SET_BITS, Result.ANSWER, Who.HANDLER),
)

OF_TASKS = (
    Call("vTaskDelay", "delay {ticks}", (A.TICKS,), Answer.ZERO, Result.VOID),
    Call("vTaskDelayUntil", "delay_until {ticks}", (A.WAKE_TIME, A.TICKS), Answer.SUCCESS, Result.VOID),
    Call("xTaskDelayUntil", "delay_until {ticks}", (A.WAKE_TIME, A.TICKS), Answer.SUCCESS, Result.ANSWER),
    Call("taskYIELD", "yield", (), Answer.ZERO, Result.VOID),
    Call("xTaskGetTickCount", "time", (), Answer.NUMBER, Result.ANSWER),
    Call("vTaskSuspend", "suspend {task}", (A.TASK_OR_CALLER,), Answer.SUCCESS, Result.VOID),
    Call("vTaskResume", "resume {task}", (A.TASK,), Answer.SUCCESS, Result.VOID),
    Call("xTaskResumeFromISR", "resume {task}", (A.TASK,), Answer.SUCCESS, Result.OTHER, Who.HANDLER),
    Call("vTaskSuspendAll", "suspend_all", (), Answer.ZERO, Result.VOID),
    Call("xTaskResumeAll", "resume_all", (), Answer.ZERO, Result.OTHER),
    Call("rtosim_work", "work {number}", (A.NUMBER,), Answer.UNCHANGED, Result.VOID),
    Call("rtosim_mark", "mark {mark}", (A.MARK,), Answer.UNCHANGED, Result.VOID, Who.BOTH),
)

OF_CRITICAL_SECTIONS = (
    critical("taskENTER_CRITICAL", "enter_critical"), critical("taskEXIT_CRITICAL", "exit_critical"),
    critical("portENTER_CRITICAL", "enter_critical"), critical("portEXIT_CRITICAL", "exit_critical"),
)

OF_NOTIFICATIONS = (
    notifies("xTaskNotifyGive", "notify {task} increment", A.TASK),
    notifies("xTaskNotify", "notify {task} {action}", A.TASK, A.VALUE, A.ACTION),
    notifies("ulTaskNotifyTake", "notify_take {takes} {wait}", A.TAKES, A.WAIT, answer=Answer.NUMBER),
    notifies("xTaskNotifyWait", "notify_wait {bits} {bits_after} {wait}", A.BITS, A.BITS_AFTER, A.VALUE_STORAGE, A.WAIT,
             answer=Answer.VALUE_OR_NONE, result=Result.RECEIVED),
    notifies("xTaskNotifyStateClear", "notify_clear", A.CALLER, answer=Answer.SUCCESS),
    notifies("ulTaskNotifyValueClear", "notify_value_clear {bits}", A.CALLER, A.BITS, answer=Answer.NUMBER),
    notifies("vTaskNotifyGiveFromISR", "notify {task} increment", A.TASK, A.WOKEN, who=Who.HANDLER, result=Result.VOID),
    notifies("xTaskNotifyFromISR", "notify {task} {action}", A.TASK, A.VALUE, A.ACTION, A.WOKEN, who=Who.HANDLER),
)

ALL_CALLS = (*OF_QUEUES, *OF_SEMAPHORES, *OF_GROUPS, *OF_TASKS, *OF_CRITICAL_SECTIONS, *OF_NOTIFICATIONS)
CALLS: Dict[str, Call] = {it.function: it for it in ALL_CALLS}

# What creates an object: the section of the file, and at which arguments its numbers are.
CREATORS: Dict[str, Tuple[str, ...]] = {
    "xQueueCreate": ("queue", "length", "size"), "xQueueCreateStatic": ("queue", "length", "size"),
    "xSemaphoreCreateBinary": ("binary",), "xSemaphoreCreateBinaryStatic": ("binary",),
    "xSemaphoreCreateCounting": ("counting", "max", "initial"), "xSemaphoreCreateCountingStatic": ("counting", "max", "initial"),
    "xSemaphoreCreateMutex": ("mutex",), "xSemaphoreCreateMutexStatic": ("mutex",),
    "xEventGroupCreate": ("group",), "xEventGroupCreateStatic": ("group",),
}
TASK_CREATORS = ("xTaskCreate", "xTaskCreateStatic")
SETUP = ("main", "app_main")

# What writes for people, and what writes to memory, which a script doesn't have.
SILENT = ("printf", "puts", "putchar")
OF_MEMORY = ("memset", "memcpy", "memmove", "memcmp", "strlen", "strcmp", "strncmp", "strcpy", "strncpy", "strcat", "strchr", "strstr",
             "snprintf", "sprintf")
WITHOUT_OP = (*SILENT, *OF_MEMORY)
COPIES = ("memcpy", "memmove")
# What ends a program: a check that fails.
ABORT = "abort"
# What a handler says to the scheduler at its end: here each handler ends so.
YIELDS_OF_HANDLERS = ("portYIELD_FROM_ISR", "portEND_SWITCHING_ISR")
# What masks interrupts in a handler: no handler of a script interrupts another one.
MASKS_OF_HANDLERS = ("taskENTER_CRITICAL_FROM_ISR", "taskEXIT_CRITICAL_FROM_ISR", "portSET_INTERRUPT_MASK_FROM_ISR",
                     "portCLEAR_INTERRUPT_MASK_FROM_ISR")
# What enables and disables an interrupt, by its number: the op for it.
OF_INTERRUPTS = {f"{start}NVIC_{word}IRQ": op for start in ("", "HAL_") for word, op in (("Enable", "arm"), ("Disable", "disarm"))}
# Ops that may be used while a critical section is open. Any other is misuse.
IN_SECTIONS = frozenset(("mark", "time", "stamp", "since", "waiting", "spaces", "bits", "clear", "enter_critical", "exit_critical", "notify_clear",
                         "notify_value_clear", *OF_INTERRUPTS.values()))

A_DELAY = "a task of its own that waits with vTaskDelay or vTaskDelayUntil"
A_QUEUE = "a queue"
NO_OP: Dict[str, Tuple[str, str]] = {
    **{it: ("software timers have no op", A_DELAY) for it in (
        "xTimerCreate", "xTimerCreateStatic", "xTimerStart", "xTimerStop", "xTimerReset", "xTimerChangePeriod", "xTimerStartFromISR",
        "xTimerStopFromISR", "xTimerResetFromISR", "xTimerPendFunctionCall", "xTimerPendFunctionCallFromISR")},
    **{it: ("stream and message buffers have no op", A_QUEUE) for it in (
        "xStreamBufferCreate", "xStreamBufferSend", "xStreamBufferSendFromISR", "xStreamBufferReceive", "xStreamBufferReceiveFromISR",
        "xMessageBufferCreate", "xMessageBufferSend", "xMessageBufferSendFromISR", "xMessageBufferReceive")},
    **{it: ("queue sets have no op", "one queue whose items say what came") for it in (
        "xQueueCreateSet", "xQueueAddToSet", "xQueueSelectFromSet", "xQueueSelectFromSetFromISR")},
    **{it: ("recursive mutexes have no op", "a mutex that is locked once") for it in (
        "xSemaphoreCreateRecursiveMutex", "xSemaphoreTakeRecursive", "xSemaphoreGiveRecursive")},
    **{it: ("masking all interrupts has no op", "taskENTER_CRITICAL() and taskEXIT_CRITICAL()") for it in (
        "taskDISABLE_INTERRUPTS", "taskENABLE_INTERRUPTS", "portDISABLE_INTERRUPTS", "portENABLE_INTERRUPTS")},
    **{f"{it}Indexed{end}": ("a task of a script has one notification, that of index 0", f"{it}{end}, if the index is 0; otherwise a semaphore")
       for it, end in (("xTaskNotify", ""), ("xTaskNotifyGive", ""), ("ulTaskNotifyTake", ""), ("xTaskNotifyWait", ""), ("xTaskNotifyStateClear", ""),
                       ("ulTaskNotifyValueClear", ""), ("xTaskNotify", "FromISR"), ("vTaskNotifyGive", "FromISR"))},
    **{f"xTaskNotifyAndQuery{it}": ("no op brings the value that a notification had", f"xTaskNotify{it}") for it in ("", "FromISR")},
    "vTaskPrioritySet": ("a task's priority is fixed in a script", "the priority in its xTaskCreate"),
    "xTaskAbortDelay": ("no op ends another task's delay", "a semaphore that is taken with a timeout"),
    "xQueueReset": ("no op empties a queue", "xQueueReceive with a wait of 0 in a loop"),
    "xEventGroupSync": ("a rendezvous has no op", "xEventGroupSetBits and then xEventGroupWaitBits"),
    "uxSemaphoreGetCount": ("no op asks for a semaphore's count", "xSemaphoreTake with a wait of 0"),
    "xSemaphoreTakeFromISR": ("a handler's take has no op", "xQueueReceiveFromISR of a queue"),
    "uxQueueMessagesWaitingFromISR": ("a handler can't ask how many items wait", "xQueuePeekFromISR"),
    "xTaskGetTickCountFromISR": ("a handler can't ask for the time", "the time in the task that it wakes"),
}

# Those of them that have an effect of their own if `main` calls them. Others that it may call, such as those that create, have none.
LASTING = ("xTimerStart", "xTimerReset", "xTimerChangePeriod", "xTimerPendFunctionCall", "vTaskPrioritySet")

# All functions that the translator knows.
KNOWN = frozenset((*CALLS, *CREATORS, *TASK_CREATORS, *YIELDS_OF_HANDLERS, *MASKS_OF_HANDLERS, *OF_INTERRUPTS, *NO_OP, *WITHOUT_OP, "configASSERT",
                   ABORT, "vTaskDelete", "vTaskStartScheduler", "xTaskGetCurrentTaskHandle"))

"""Random functions in C around calls of FreeRTOS, each of one task alone."""
import random
from typing import Callable, List

HEAD = """#include "FreeRTOS.h"
#include "task.h"
#include "queue.h"
#include "semphr.h"
#include "event_groups.h"
#include <string.h>

static QueueHandle_t jobs, box, pairs;
static SemaphoreHandle_t flag, count, bus;
static EventGroupHandle_t events;
static const int limit = 3;
enum command { STOP, GO = 4, WAIT };
enum mode { OFF, ON, AUTO };
enum level { BELOW = -3, NEAR, ABOVE = 2 };
enum wide { NARROW = 1, WIDE = 0x80000000 };
struct ring { uint8_t data[4]; volatile uint8_t head, tail; };
struct context { int total; uint8_t last; };
static struct context context;
struct pair { int x; uint8_t y; };
static uint8_t buffer[8];
struct fields { uint8_t c; volatile int d; unsigned e; struct pair in; };

static void fields_init(struct fields *f, int d) { f->d = d; f->c = 3; f->in.y = (uint8_t)d; }
static void bump(struct fields *f, int by) { f->d += by; f->c++; }
static int total(const struct fields *f) { return f->c + f->in.x; }
static struct fields *same(struct fields *f) { return f; }

/* rtosim: ignore board_* */
void board_fill(void *to, unsigned size);

static const uint8_t table[4] = { 9, 4, 250, 1 };
static const struct pair rows[3] = { { 1, 2 }, { -3, 4 }, { .y = 5 } };
struct port { QueueHandle_t to; struct pair *about; int n; };
static void add_to(int *to, int by) { *to += by; }
static void put(struct ring *r, int c) { r->data[r->head] = (uint8_t)c; r->head = (r->head + 1) & 3; }
static uint8_t get(struct ring *r) { uint8_t c = r->data[r->tail++]; r->tail %= 4; return c; }
static void shift(int16_t *in, int by) { for (int i = 0; i < 2; i++) in[i] = in[i + 1]; in[2] = (int16_t)by; }

static int sum(const uint8_t *data, int size)
{
    int found = 0;
    for (int i = 0; i < size; i++) found += data[i];
    return found;
}
"""
CREATES = """
    jobs = xQueueCreate(3, sizeof(int));
    box = xQueueCreate(1, sizeof(uint8_t));
    pairs = xQueueCreate(2, sizeof(struct pair));
    flag = xSemaphoreCreateBinary();
    count = xSemaphoreCreateCounting(3, 1);
    bus = xSemaphoreCreateMutex();
    events = xEventGroupCreate();
"""
INTEGERS = ("a", "b", "n", "v", "ok", "flags", "pair.x", "pair.y")
WAITS = ("0", "0", "0", "2", "pdMS_TO_TICKS(3)")
COMPARISONS = ("==", "!=", "<", "<=", ">", ">=")


class Programs:
    """A source of tasks. A name of a local is chosen at random, so some are asked for when a script doesn't keep them any more."""

    def __init__(self, seed: int):
        self.dice = random.Random(seed)
        self.helpers: List[str] = []
        self.depth = 0
        # The globals and static locals of the task that is made, and its global structure, if it has one.
        self.shared: List[str] = []
        self.structure = ""
        # What that task has of arrays of structures, of functions with static locals, and of integers whose address may be taken.
        self.rows = self.stepped = self.addressed = ""
        # An array of integers, and its type; and a ring buffer.
        self.array = self.element = self.ring = ""
        self.labels = 0
        # What main gives them.
        self.given: List[str] = []

    def names(self) -> List[str]:
        """What a statement may name: locals, and more often than not what outlasts them."""
        return [*INTEGERS, *self.shared, *self.shared]

    def one_of(self, *choices: str) -> str:
        return self.dice.choice(choices)

    def number(self) -> str:
        return self.one_of("0", "1", "2", "3", "4", "7", "limit", "GO", "'c'", "0x10", "250u", "NEAR", "WIDE")

    def file(self, tasks: int) -> str:
        functions, creates = [], []
        for at in range(tasks):
            functions.append(self.task(f"task_{at}"))
            creates.append(f'    xTaskCreate(task_{at}, "task_{at}", 128, NULL, 1, NULL);\n')
        helpers = "".join(self.helpers)
        given = "".join(f"    {it}\n" for it in self.given)
        return f"{HEAD}{helpers}{''.join(functions)}\nint main(void)\n{{{CREATES}{given}{''.join(creates)}    vTaskStartScheduler();\n}}\n"

    def task(self, name: str) -> str:
        globals_, statics = self.lasting(name.replace("task_", "of_"))
        body = "".join(self.statement(1, "") for _ in range(self.dice.randrange(2, 7)))
        return f"\n{globals_}static void {name}(void *parameters)\n{{\n{statics}{self.locals()}{body}}}\n"

    def lasting(self, end: str) -> List[str]:
        """The declarations of globals and of static locals, of half of the tasks."""
        self.shared, self.structure, self.rows, self.stepped, self.addressed = [], "", "", "", ""
        self.array = self.element = self.ring = ""
        declared = ["", ""]
        for type_, at in (("uint8_t", 0), ("unsigned", 0), ("int", 0), ("int16_t", 1), ("bool", 1), ("enum mode", 0),
                          ("enum level", 1)):
            if self.has_lasting(end) and self.dice.random() < 0.5:
                self.shared.append(f"{'gs'[at]}{len(self.shared)}_{end}")
                declared[at] += f"{'    ' * at}static {self.one_of('', 'volatile ')}{type_} {self.shared[-1]} = {self.one_of('0', '1', '3', '250')};\n"
        if self.has_lasting(end) and self.dice.random() < 0.6:
            declared[0] += self.lasting_structure(end)
        if self.has_lasting(end):
            declared[0] += self.lasting_parts(end)
        if self.shared and self.shared[0].startswith("g") and self.dice.random() < 0.4:
            self.given.append(f"{self.shared[0]} {self.one_of('=', '+=')} {self.number()};")
        return declared

    def lasting_structure(self, end: str) -> str:
        """The declaration of a global structure, whose members may be named then; some of them `main` gives a value."""
        name = self.structure = f"f_{end}"
        self.shared += [self.one_of(f"{name}.c", f"(&{name})->c"), f"{name}.d", self.one_of(f"{name}.e", f"same(&{name})->e"), f"{name}.in.y"]
        self.given += self.one_of("", f"{name}.d = {self.number()};", f"fields_init(&{name}, {self.number()});", f"if (limit == 3) {name}.e -= 2;",
                                  f"for (int i = 0; i < 3; i++) {name}.c += 100;").splitlines()
        return f"static struct fields {name}{self.one_of('', ' = { 1, 2 }', ' = { .d = -1, .in = { 4 } }', ' = { .in.y = 250 }')};\n"

    def lasting_parts(self, end: str) -> str:
        """The declarations of an integer whose address is taken, of an array of structures, and of a function that has static locals."""
        found = ""
        if self.dice.random() < 0.5:
            self.addressed = f"h_{end}"
            found += f"static int {self.addressed} = {self.number()};\n"
        if self.dice.random() < 0.6:
            self.rows = f"rows_{end}"
            self.shared += [f"{self.rows}[0].x", f"{self.rows}[1].y"]
            found += f"static struct pair {self.rows}[2]{self.one_of('', ' = { 1, 2, 3, 4 }', ' = { { 1 }, { .y = 250 } }', ' = { [1] = { 5, 6 } }')};\n"
            self.given += self.one_of("", f"for (int i = 0; i < 2; i++) {self.rows}[i].x += i;", f"{self.rows}[0] = {self.rows}[1];").splitlines()
        if self.dice.random() < 0.5:
            found += self.lasting_array(end)
        if self.dice.random() < 0.6:
            self.stepped = f"stepped_{end}"
            found += (f"static int {self.stepped}(int by)\n{{\n    static int n = 2;\n    static struct pair last{self.one_of('', ' = { 7 }')};\n"
                      f"    {{ static int n = 7; n ^= by; last.y = (uint8_t)n; }}\n    n += by;\n    last.x += n;\n    return last.x - last.y;\n}}\n")
        return found

    def lasting_array(self, end: str) -> str:
        """The declarations of an array of integers, and of a ring buffer."""
        self.array, self.ring = f"array_{end}", f"ring_{end}"
        self.shared += [f"{self.array}[1]", f"{self.array}[n % 3]", f"{self.ring}.data[{self.ring}.tail & 3]"]
        self.element = self.one_of("uint8_t", "int16_t", "int16_t", "int", "unsigned", "bool", "enum mode")
        self.given += self.one_of("", f"{self.array}[2] = {self.number()};", f"for (int i = 0; i < 3; i++) {self.array}[i] += i;",
                                  f"memset({self.array}, 0, sizeof({self.array}));", f"put(&{self.ring}, 5);").splitlines()
        return (f"static {self.one_of('', 'volatile ')}{self.element} {self.array}[3]{self.one_of('', ' = { 0 }', ' = { 1, 2 }', ' = { [1] = 250 }')};\n"
                f"static struct ring {self.ring}{self.one_of('', ' = { { 1, 2 }, 1 }', ' = { .tail = 3 }')};\n")

    def has_lasting(self, end: str) -> bool:
        return int(end.partition("_")[2]) % 2 == 1

    def locals(self) -> str:
        a, b, n, v = (self.one_of("0", "1", "2", "3", "5") for _ in range(4))
        integers = f"    int a = {a}, b = {b}, item = 0;\n    unsigned n = {n};\n    uint8_t v = {v};\n    bool ok = false;\n    uint32_t flags = {n};\n    struct pair pair = {self.one_of('{ 0 }', '{ .y = 7 }', '{ a, b }')};\n"
        first = self.one_of("0", "xTaskGetTickCount()", "1")
        return f"{integers}    TickType_t t = 0, u = {first};\n"

    # -- calls

    def flagging(self) -> str:
        """A call that returns pdTRUE or pdFALSE."""
        wait = self.one_of(*WAITS)
        return self.one_of(
            f"xQueueReceive(jobs, &item, {wait})", f"xQueueReceive(box, &v, {wait})", f"xQueuePeek(jobs, &item, {wait})",
            f"xSemaphoreTake(flag, {wait})", f"xSemaphoreTake(count, {wait})", f"xSemaphoreTake(bus, {wait})", "xSemaphoreGive(flag)",
            "xSemaphoreGive(count)", self.sending(wait), self.sending(wait), self.notifying(wait),
        )

    def notifying(self, wait: str) -> str:
        """A call that notifies the task itself, or asks whether it was notified."""
        own, bits = "xTaskGetCurrentTaskHandle()", self.one_of("0", "1", "6", "UINT32_MAX")
        action = self.one_of("eNoAction", "eSetBits", "eIncrement", "eSetValueWithOverwrite", "eSetValueWithoutOverwrite")
        return self.one_of(
            f"xTaskNotify({own}, {self.one_of(*INTEGERS, self.number())}, {action})", f"xTaskNotifyGive({own})", "xTaskNotifyStateClear(NULL)",
            f"xTaskNotifyWait({bits}, {self.one_of('0', '3', 'UINT32_MAX')}, {self.one_of('&flags', '&flags', 'NULL')}, {wait})",
        )

    def sending(self, wait: str) -> str:
        return self.one_of(
            f"xQueueSend(jobs, &a, {wait})", f"xQueueSend(pairs, &pair, {wait})", f"xQueueReceive(pairs, &pair, {wait})", f"xQueueSendToFront(jobs, &b, {wait})", f"xQueueSend(box, &v, {wait})",
            f"xQueueSendToBack(jobs, &n, {wait})", "xQueueOverwrite(box, &a)",
        )

    def counting(self) -> str:
        """A call that returns a number."""
        return self.one_of(
            "uxQueueMessagesWaiting(jobs)", "uxQueueSpacesAvailable(jobs)", "xEventGroupGetBits(events)", "xEventGroupSetBits(events, 2)",
            "xEventGroupClearBits(events, 1)", "xEventGroupSetBits(events, 1)", "xEventGroupWaitBits(events, 3, pdTRUE, pdFALSE, 1)",
            "xEventGroupWaitBits(events, 3, pdFALSE, pdTRUE, 0)",
            f"ulTaskNotifyTake({self.one_of('pdTRUE', 'pdFALSE')}, {self.one_of(*WAITS)})", "ulTaskNotifyValueClear(NULL, 1)",
        )

    def helper(self) -> str:
        """A call of a function of the file, which may be a new one."""
        if len(self.helpers) < 6 or self.dice.random() < 0.1:
            self.new_helper()
        at = self.dice.randrange(len(self.helpers))
        return f"helper_{at}({self.one_of('1', '2', 'a', 'GO')}, &{self.one_of('a', 'b')})"

    def new_helper(self) -> None:
        depth, self.depth = self.depth, 3
        body = self.one_of(
            f"    if ({self.flagging()} != pdTRUE) return {self.number()};\n",
            f"    for (int i = 0; i < x; i++) {{\n        if ({self.flagging()}) return i;\n    }}\n",
            f"    for (int i = 0; i < 2; i++) {{\n        {self.sending('0')};\n        if ({self.flagging()}) return 1;\n    }}\n",
            f"    if ({self.flagging()}) *out = x; else *out = {self.number()};\n",
            f"    switch (x) {{\n    case 1: ok = {self.flagging()};\n    case 2: rtosim_mark(4); return ok;\n    default: *out = 1;\n    }}\n",
            f"    while ({self.flagging()}) {{\n        if ({self.flagging()}) return 2;\n    }}\n",
        )
        self.depth = depth
        at = len(self.helpers)
        end = self.one_of("0", "x", "x + 1", "ok", "*out")
        self.helpers.append(f"\nstatic int helper_{at}(int x, int *out)\n{{\n{self.locals()}{body}    return {end};\n}}\n")

    # -- expressions

    def integer(self, depth: int = 2) -> str:
        """An expression without calls."""
        if depth == 0 or self.dice.random() < 0.4:
            return self.one_of(*self.names(), self.number(), self.number())
        left, right = self.integer(depth - 1), self.integer(depth - 1)
        return self.one_of(
            f"({left} + {right})", f"({left} - {right})", f"({left} * {self.number()})", f"({left} / {self.one_of('2', '3', '7')})",
            f"({left} % {self.one_of('2', '3', '5')})", f"({left} & {right})", f"({left} | {right})", f"({left} ^ {right})",
            f"({left} << {self.one_of('1', '3')})", f"((unsigned){left} >> {self.one_of('1', '2')})", f"- {left}", f"~{left}",
            f"({left} {self.one_of(*COMPARISONS)} {right})", f"!{left}", f"(uint8_t){left}", f"({left} ? {right} : {self.number()})",
        )

    def asking(self) -> str:
        """An expression with one call."""
        if self.dice.random() < 0.12:
            return self.helper()
        if self.dice.random() < 0.3:
            return f"{self.counting()}{self.one_of('', f' & {self.one_of(chr(49), chr(50))}', f' + {self.number()}')}"
        return f"{self.flagging()}{self.one_of('', ' == pdTRUE', ' != pdPASS', ' == pdFALSE')}"

    def condition(self, depth: int = 2) -> str:
        choice = self.dice.random()
        if depth and choice < 0.2:
            return f"{self.condition(depth - 1)} {self.one_of('&&', '||')} {self.condition(depth - 1)}"
        if depth and choice < 0.28:
            return f"!({self.condition(depth - 1)})"
        if choice < 0.5:
            return f"{self.one_of(*self.names())} {self.one_of(*COMPARISONS)} {self.number()}"
        if choice < 0.58:
            return self.integer()
        return f"({self.asking()})" if self.dice.random() < 0.6 else f"({self.asking()}) {self.one_of(*COMPARISONS)} {self.number()}"

    # -- statements

    def block(self, level: int, jumps: str, most: int = 4) -> str:
        return "".join(self.statement(level, jumps) for _ in range(self.dice.randrange(1, most)))

    def statement(self, level: int, jumps: str) -> str:
        """One statement; `jumps` has the letters of those that are allowed: b of `break`, c of `continue`."""
        indent = "    " * level
        simple: List[Callable[[], str]] = [
            lambda: f"{self.one_of(*self.names())} = {self.asking()};", lambda: f"{self.one_of(*self.names())} = {self.integer()};",
            lambda: f"{self.asking()};", lambda: f"{self.one_of('a', 'b', 'n', 'v', *self.shared)}{self.one_of('++', '--', ' += 2', ' |= 5', ' *= 3')};",
            lambda: f"rtosim_mark({self.number()});", lambda: f"rtosim_mark((uint8_t){self.one_of('a', 'n', 'v', *self.shared)});", self.passing, self.apart, self.timing, self.pointed, self.pointed, self.hiding, self.hiding,
            self.elements, lambda: f"configASSERT({self.condition(1)});", lambda: f"ok = {self.condition()};",
            lambda: f"if ({self.condition()}) {self.one_of(*self.jumps(jumps))};",
        ]
        nested = [self.branch, self.branch, self.switch, self.while_loop, self.counted_loop, self.endless_loop, self.do_loop]
        if level >= 4 or self.dice.random() < 0.6:
            return f"{indent}{self.dice.choice(simple)()}\n"
        return self.dice.choice(nested)(level, jumps, indent)

    def passing(self) -> str:
        return self.one_of("rtosim_work(2);", "vTaskDelay(1);", "/* rtosim: work 1 */", "taskYIELD();", "/* rtosim: mark 6 */")

    def apart(self) -> str:
        """A statement about memory that isn't followed, or about a local by its address."""
        local, whole = self.one_of("a", "b", "item"), self.structure
        if whole and self.dice.random() < 0.5:
            return self.one_of(
                f"bump(&{whole}, {self.number()});", f"{local} = total(&{whole});", f"{{ struct fields copy = {whole}; copy.d++; {whole} = copy; }}",
                f"{{ struct fields *f = &{whole}; f->{self.one_of('c', 'd', 'e', 'in.x')} {self.one_of('=', '+=', '^=')} {local}; }}", f"pair = {whole}.in;",
                f"memset(&{whole}, 0, sizeof({whole}));", f"{whole}.in = pair;", f"xQueueSend(pairs, &{whole}.in, 0);", f"xQueueReceive(box, &{whole}.c, {self.one_of(*WAITS)});", f"{{ uint8_t *c = &{whole}.c; *c += 2; }}",
                f"if ({whole}.c == {whole}.e) rtosim_mark(3);", f"ok = &{whole} == same(&{whole});",
            )
        return self.one_of(
            f"buffer[n & 7] = {local};", f"context.total += {local};", "{ struct context *c = &context; c->last = v; }", f"{local} = sum(buffer, 4);",
            f"{{ int *to = &{local}; *to = {self.number()}; }}", "{ uint8_t *to = &v; to[0] = 7; }", "memset(buffer, 0, sizeof(buffer));",
            f"{local} = sizeof(buffer);", f"{local} = buffer[1];", "board_fill(&item, sizeof(item));", "ok = buffer != NULL && &context;",
            "taskENTER_CRITICAL(); n += 2; taskEXIT_CRITICAL();", f"{{ taskENTER_CRITICAL(); {local} = {self.counted_in_section()}; taskEXIT_CRITICAL(); }}",
            f"{{ struct pair *to = &pair; to->{self.one_of('x', 'y')} {self.one_of('=', '+=', '^=')} {local}; }}", "memset(&pair, 0, sizeof(pair));",
            "{ struct pair other = pair; other.x++; pair = other; }", "board_fill(&pair.y, 1);",
            f"{{ int copy[2] = {{ {local}, 1 }}; board_fill(copy, 4); }}",
        )

    def pointed(self) -> str:
        """A statement about a pointer, an array of structures, a table or a static local."""
        local, rows, at = self.one_of("a", "b"), self.rows, self.one_of("0", "1")
        found = [
            f"add_to(&{local}, {self.integer(1)});", f"{local} = table[{self.one_of('0', '1', '2', '3')}];", f"{local} = table[n & 3];",
            f"{local} += rows[{at}].x;", f"for (int i = 0; i < 3; i++) {local} += rows[i].y;", f"{local} = table[uxQueueMessagesWaiting(jobs)];",
            f"{{ struct port port = {{ jobs, &pair, {self.number()} }}; port.about->x += 2; ok = xQueueSend(port.to, &port.n, 0); }}",
            f"{{ struct port port = {{ 0 }}; port.to = {self.one_of('box', 'jobs')}; port.n = {local}; struct port other = port; xQueueSend(other.to, &other.n, 0); }}",
        ]
        if self.addressed:
            found += [f"add_to(&{self.addressed}, {self.number()});", f"{{ int *to = &{self.addressed}; (*to)++; {local} = *to; }}",
                      f"if ({self.addressed} {self.one_of(*COMPARISONS)} {local}) rtosim_mark(3);"] * 2
        if rows:
            found += [f"{rows}[{at}].{self.one_of('x', 'y')} {self.one_of('=', '+=', '^=')} {local};", f"for (int i = 0; i < 2; i++) {rows}[i].x += {self.number()};",
                      f"{{ struct pair *row = &{rows}[{at}]; row->y++; {local} = row->x; }}", f"pair = {rows}[{at}];", f"{rows}[{at}] = pair;",
                      f"memcpy(&{rows}[{at}], &pair, sizeof(pair));"] * 2
        if self.stepped:
            found += [f"{local} = {self.stepped}({self.integer(1)});"] * 4
        return self.dice.choice(found)

    def elements(self) -> str:
        """A statement about elements of arrays, by an index that is constant, or that isn't."""
        local, other = self.one_of("a", "b", "n", *self.shared), self.one_of("a", "b", "v")
        at = self.one_of("1", "n % 3", "(n & 1) + 1", "(uint8_t)a % 3", "b & 1", "uxQueueMessagesWaiting(jobs) % 3")
        found = [
            f"{{ int xs[3] = {{ {local}, 2 }}; xs[{at}] {self.one_of('=', '+=')} {other}; {other} = xs[n % 3]; }}",
            f"{{ uint8_t xs[3] = {{ 0 }}; for (int i = 0; i < 3; i++) xs[i] = (uint8_t)({local} + i); {other} = xs[{at}] + xs[2]; }}",
            f"{{ struct pair ps[2] = {{ {{ 1, 2 }}, {{ {local} }} }}; ps[n & 1].{self.one_of('x', 'y')}++; {other} = ps[0].x + ps[1].{self.one_of('x', 'y')}; }}",
            f"{{ struct ring r = {{ 0 }}; put(&r, {local}); put(&r, 7); {other} = get(&r) + r.data[{self.one_of('1', 'n & 3')}]; }}",
            f"{{ enum level l = {self.one_of('BELOW', 'ABOVE')}; l += {other}; {local} = l < NEAR; }}", f"{{ enum mode m = {local}; m--; {other} = m > AUTO; }}",
        ]
        if self.array:
            name = self.array
            found += [
                f"{name}[{at}] {self.one_of('=', '+=', '^=', '-=')} {self.one_of(local, self.integer(1))};", f"{local} = {name}[{at}];", f"{name}[{at}]{self.one_of('++', '--')};",
                f"{local} = {name}[{at}]++ + 1;", f"if ({name}[{at}] {self.one_of(*COMPARISONS)} {other}) rtosim_mark(3);", f"{name}[{at}] = {self.asking()};",
                f"{{ {self.element} *to = &{name}[1]; *to = {other}; to[1]++; {local} = to[-1]; }}", f"{{ {self.element} *to = {name}; {local} = 0; for (int i = 0; i < 3; i++) {local} += *to++; }}",
                f"for (int i = 0; i < 3; i++) {name}[i] = {other};", f"memset({name}, 0, sizeof({name}));", f"{local} = {name}[0] + {name}[{at}];", f"rtosim_mark((uint8_t){name}[{at}]);",
                f"put(&{self.ring}, {self.one_of(local, self.integer(1))});", f"{other} = get(&{self.ring});", f"if (get(&{self.ring}) {self.one_of(*COMPARISONS)} {self.number()}) {local} = 3;",
                f"{self.ring}.data[{self.one_of('0', 'n & 3')}]++;", f"{{ struct ring copy = {self.ring}; {other} = copy.data[n & 3]; }}", f"xQueueReceive(box, &{self.ring}.data[{self.one_of('0', '2')}], 0);",
            ] + [f"shift({name}, {local});"] * 3 * (self.element == "int16_t")
        if self.rows:
            found += [f"{self.rows}[n & 1].{self.one_of('x', 'y')} {self.one_of('=', '+=', '^=')} {local};", f"{other} = {self.rows}[{self.one_of('n', 'a', 'b')} & 1].x;",
                      f"{{ struct pair *row = &{self.rows}[1]; row->y++; {local} = {self.rows}[n & 1].y; }}"] * 2
        return self.dice.choice(found)

    def hiding(self) -> str:
        """A statement with names that hide others, with several assignments in one, or with a jump ahead."""
        local, label = self.one_of("a", "b"), f"out_{self.labels}"
        self.labels += 1
        return self.one_of(
            f"{{ int a = {self.number()}, n = b; a += n; rtosim_mark((uint8_t)a); }}", f"{{ enum {{ LOW = 2, HIGH }}; {local} = HIGH - LOW; }}",
            f"switch ({local}) {{ int b; case 1: b = 5; a = b; break; default:; int n; n = 4; a += n; }}", f"v = n = {local};", f"{local} = (v += 9);",
            f"{local} = (n++, n + {self.number()});", f"a = {local}++ + {self.number()};", "b = ++a - n--;", f"{local} = v++ * 2 + (uint8_t){self.integer(1)};",
            f"{{ if ({self.condition(1)}) goto {label}; {self.passing()} {label}:; }}", f"{local} = {self.asking()} ? {self.number()} : {self.integer(1)};",
            "{ uint64_t big = (uint64_t)v * 1000; n = (unsigned)(big / 7); }", "{ int64_t big = v; if (big - 3 < 0) rtosim_mark(2); }",
            f"{{ int16_t small = (int16_t){self.integer(1)}; if (small < {local}) rtosim_mark(5); {local} = small / 3; }}", f"{local} = (int8_t)({local} + 100);",
        )

    def timing(self) -> str:
        """A time that is measured from, or that is read."""
        from_, local = self.one_of("t", "t", "u"), self.one_of("a", "n")
        return self.one_of(
            f"{from_} = xTaskGetTickCount();", f"{from_} = xTaskGetTickCount();", "u = t;", f"{local} = xTaskGetTickCount();",
            f"{local} = xTaskGetTickCount() - {from_};", f"if (xTaskGetTickCount() - {from_} > {self.one_of('0', '2', '5')}) rtosim_mark(9);",
            f"configASSERT(xTaskGetTickCount() - {from_} < 9);", f"ok = xTaskGetTickCount() - {from_} == 2 && {self.flagging()};",
        )

    def counted_in_section(self) -> str:
        """A call that may be used in a critical section."""
        return self.one_of("uxQueueMessagesWaiting(jobs)", "uxQueueSpacesAvailable(box)", "xEventGroupGetBits(events)", "xEventGroupClearBits(events, 1)")

    def jumps(self, jumps: str) -> List[str]:
        """Statements that leave."""
        found = ["vTaskDelete(NULL)", "return"]
        return found + ["break"] * 4 * ("b" in jumps) + ["continue"] * 3 * ("c" in jumps)

    def branch(self, level: int, jumps: str, indent: str) -> str:
        text = f"{indent}if ({self.condition()}) {{\n{self.block(level + 1, jumps)}{indent}}}"
        return text + (f" else {{\n{self.block(level + 1, jumps)}{indent}}}\n" if self.dice.random() < 0.5 else "\n")

    def switch(self, level: int, jumps: str, indent: str) -> str:
        text = f"{indent}switch ({self.one_of(self.asking(), self.one_of(*self.names()), self.integer(1))}) {{\n"
        labels = self.dice.sample(["0", "1", "2", "3", "GO", "7", "250"], self.dice.randrange(1, 4)) + ["default"] * self.dice.randrange(2)
        self.dice.shuffle(labels)
        for it in labels:
            text += f"{indent}{'default' if it == 'default' else f'case {it}'}:\n"
            if self.dice.random() < 0.8:
                text += self.block(level + 1, jumps.replace("b", "") + "b", 3)
                text += f"{indent}    break;\n" if self.dice.random() < 0.7 else ""
        return text + f"{indent}    ;\n{indent}}}\n"

    def while_loop(self, level: int, jumps: str, indent: str) -> str:
        condition = self.one_of(self.condition(), f"{self.flagging()} == pdTRUE", f"{self.flagging()} && {self.condition(1)}")
        return f"{indent}while ({condition}) {{\n{indent}    {self.flagging()};\n{self.block(level + 1, 'bc')}{indent}}}\n"

    def counted_loop(self, level: int, jumps: str, indent: str) -> str:
        turns, name = self.one_of("1", "2", "3", "limit"), f"i{level}"
        head = self.one_of(
            f"for (int {name} = 0; {name} < {turns}; {name}++)", f"for (int {name} = {turns}; {name} > 0; --{name})",
            f"for (int {name} = 0; {name} < {turns} && ({self.condition(1)}); {name}++)",
            f"for (unsigned {name} = 0; {name} != 4; {name} += 2)",
        )
        mark = f"{indent}    rtosim_mark((unsigned){name});\n" if self.dice.random() < 0.3 else ""
        return f"{indent}{head} {{\n{mark}{self.block(level + 1, 'bc')}{indent}}}\n"

    def endless_loop(self, level: int, jumps: str, indent: str) -> str:
        leave = f"{indent}    if ({self.condition(1)}) {self.one_of('break', 'break', 'return', 'vTaskDelete(NULL)')};\n"
        return f"{indent}for (;;) {{\n{indent}    {self.flagging()};\n{self.block(level + 1, 'bc')}{leave}{indent}}}\n"

    def do_loop(self, level: int, jumps: str, indent: str) -> str:
        condition = self.one_of(self.condition(), "--n > 0 && n < 9", "0", f"{self.flagging()} == pdTRUE")
        return f"{indent}do {{\n{indent}    {self.flagging()};\n{self.block(level + 1, 'bc')}{indent}}} while ({condition});\n"

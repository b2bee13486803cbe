/* The calls of FreeRTOS for one task alone: they write the trace that a script of the same calls has. */
#include "FreeRTOS.h"
#include "task.h"
#include "queue.h"
#include "semphr.h"
#include "event_groups.h"

typedef long jump_buffer[64];
int _setjmp(jump_buffer buffer);
void longjmp(jump_buffer buffer, int value);
int printf(const char *format, ...);

enum { MOST_TASKS = 40, MOST_ITEMS = 16, MOST_CALLS = 300 };
enum { QUEUE, SEMAPHORE, MUTEX, GROUP };

struct object { int kind; unsigned size, most, initial, count; uint32_t items[MOST_ITEMS]; };
struct task { TaskFunction_t function; const char *name; void *parameters; };

static struct object objects[16];
static struct task tasks[MOST_TASKS];
static unsigned object_count, task_count, calls, now, sections;
/* the notification of the task that runs */
static uint32_t notified;
static int is_pending;
static jump_buffer leaves;

static void stop(const char *why)
{
    printf("%s\n", why);
    longjmp(leaves, 1);
}

static void traced(const char *word, uint32_t answer)
{
    printf("%u %s = %u\n", now, word, answer);
    if (++calls >= MOST_CALLS) stop("enough");
}

static void traced_none(const char *word)
{
    printf("%u %s = none\n", now, word);
    if (++calls >= MOST_CALLS) stop("enough");
}

static struct object *made(int kind, unsigned size, unsigned most, unsigned initial)
{
    struct object *it = &objects[object_count++];
    it->kind = kind, it->size = size, it->most = most, it->initial = initial;
    return it;
}

/* whether the call is possible; if it isn't, the time that it waits passes */
static int waits(int is_possible, TickType_t wait)
{
    if (is_possible) return 1;
    if (wait == portMAX_DELAY) stop("stuck");
    now += wait;
    return 0;
}

/* of a structure the first member, which has 32 bits */
static uint32_t read_item(const struct object *it, const void *item)
{
    const uint8_t *bytes = item;
    uint32_t found = 0;
    for (unsigned at = 0; at < it->size && at < sizeof(found); at++) found |= (uint32_t)bytes[at] << 8 * at;
    return found;
}

static void write_item(const struct object *it, uint32_t number, void *item)
{
    uint8_t *bytes = item;
    for (unsigned at = 0; at < it->size && at < sizeof(number); at++) bytes[at] = (uint8_t)(number >> 8 * at);
}

QueueHandle_t xQueueCreate(UBaseType_t length, UBaseType_t size) { return (QueueHandle_t)made(QUEUE, size, length, 0); }
SemaphoreHandle_t xSemaphoreCreateBinary(void) { return (SemaphoreHandle_t)made(SEMAPHORE, 0, 1, 0); }
SemaphoreHandle_t xSemaphoreCreateCounting(UBaseType_t greatest, UBaseType_t initial)
{
    return (SemaphoreHandle_t)made(SEMAPHORE, 0, greatest, initial);
}
SemaphoreHandle_t xSemaphoreCreateMutex(void) { return (SemaphoreHandle_t)made(MUTEX, 0, 1, 1); }
EventGroupHandle_t xEventGroupCreate(void) { return (EventGroupHandle_t)made(GROUP, 0, 0, 0); }

static BaseType_t put(const char *word, QueueHandle_t queue, const void *item, TickType_t wait, int is_front)
{
    struct object *it = (struct object *)queue;
    int is_possible = waits(it->count < it->most, wait);
    if (is_possible) {
        unsigned at = is_front ? 0 : it->count;
        for (unsigned behind = it->count; behind > at; behind--) it->items[behind] = it->items[behind - 1];
        it->items[at] = read_item(it, item);
        it->count++;
    }
    traced(word, (uint32_t)is_possible);
    return is_possible;
}

BaseType_t xQueueSend(QueueHandle_t queue, const void *item, TickType_t wait) { return put("send", queue, item, wait, 0); }
BaseType_t xQueueSendToBack(QueueHandle_t queue, const void *item, TickType_t wait) { return put("send", queue, item, wait, 0); }
BaseType_t xQueueSendToFront(QueueHandle_t queue, const void *item, TickType_t wait) { return put("send_front", queue, item, wait, 1); }

BaseType_t xQueueOverwrite(QueueHandle_t queue, const void *item)
{
    struct object *it = (struct object *)queue;
    it->items[0] = read_item(it, item);
    it->count = 1;
    traced("overwrite", 1);
    return pdTRUE;
}

static BaseType_t look(const char *word, QueueHandle_t queue, void *item, TickType_t wait, unsigned taken)
{
    struct object *it = (struct object *)queue;
    if (!waits(it->count > 0, wait)) {
        traced_none(word);
        return pdFALSE;
    }
    uint32_t first = it->items[0];
    it->count -= taken;
    for (unsigned at = 0; taken && at < it->count; at++) it->items[at] = it->items[at + 1];
    traced(word, first);
    write_item(it, first, item);
    return pdTRUE;
}

BaseType_t xQueueReceive(QueueHandle_t queue, void *item, TickType_t wait) { return look("receive", queue, item, wait, 1); }
BaseType_t xQueuePeek(QueueHandle_t queue, void *item, TickType_t wait) { return look("peek", queue, item, wait, 0); }

static UBaseType_t counted(const char *word, unsigned number)
{
    traced(word, number);
    return number;
}

UBaseType_t uxQueueMessagesWaiting(QueueHandle_t queue) { return counted("waiting", ((struct object *)queue)->count); }
UBaseType_t uxQueueSpacesAvailable(QueueHandle_t queue)
{
    struct object *it = (struct object *)queue;
    return counted("spaces", it->most - it->count);
}

BaseType_t xSemaphoreTake(SemaphoreHandle_t semaphore, TickType_t wait)
{
    struct object *it = (struct object *)semaphore;
    int is_possible = waits(it->count > 0, wait);
    it->count -= (unsigned)is_possible;
    traced(it->kind == MUTEX ? "lock" : "take", (uint32_t)is_possible);
    return is_possible;
}

BaseType_t xSemaphoreGive(SemaphoreHandle_t semaphore)
{
    struct object *it = (struct object *)semaphore;
    int is_possible = it->count < it->most;
    if (!is_possible && it->kind == MUTEX) stop("misuse");
    it->count += (unsigned)is_possible;
    traced(it->kind == MUTEX ? "unlock" : "give", (uint32_t)is_possible);
    return is_possible;
}

EventBits_t xEventGroupSetBits(EventGroupHandle_t group, EventBits_t bits)
{
    struct object *it = (struct object *)group;
    it->count |= bits;
    return counted("set", it->count);
}

EventBits_t xEventGroupClearBits(EventGroupHandle_t group, EventBits_t bits)
{
    struct object *it = (struct object *)group;
    unsigned before = it->count;
    it->count &= ~bits;
    return counted("clear", before);
}

EventBits_t xEventGroupGetBits(EventGroupHandle_t group) { return counted("bits", ((struct object *)group)->count); }

EventBits_t xEventGroupWaitBits(EventGroupHandle_t group, EventBits_t bits, BaseType_t clears, BaseType_t all, TickType_t wait)
{
    struct object *it = (struct object *)group;
    int is_met = waits(all ? (it->count & bits) == bits : (it->count & bits) != 0, wait);
    unsigned found = it->count;
    if (is_met && clears) it->count &= ~bits;
    return counted("wait", found);
}

TaskHandle_t xTaskGetCurrentTaskHandle(void) { return (TaskHandle_t)tasks; }

BaseType_t xTaskNotify(TaskHandle_t task, uint32_t value, eNotifyAction action)
{
    int is_kept = action == eSetValueWithoutOverwrite && is_pending;
    (void)task;
    if (action == eSetBits) notified |= value;
    if (action == eIncrement) notified++;
    if (action == eSetValueWithOverwrite || (action == eSetValueWithoutOverwrite && !is_kept)) notified = value;
    is_pending = 1;
    traced("notify", (uint32_t)!is_kept);
    return !is_kept;
}

BaseType_t xTaskNotifyGive(TaskHandle_t task) { return xTaskNotify(task, 0, eIncrement); }

uint32_t ulTaskNotifyTake(BaseType_t clears, TickType_t wait)
{
    waits(notified != 0, wait);
    uint32_t found = notified;
    if (found != 0) notified = clears ? 0 : found - 1;
    is_pending = 0;
    return counted("notify_take", found);
}

BaseType_t xTaskNotifyWait(uint32_t clears_before, uint32_t clears_after, uint32_t *value, TickType_t wait)
{
    if (!is_pending) notified &= ~clears_before;
    int is_there = waits(is_pending, wait);
    if (value) *value = notified;
    is_pending = 0;
    if (!is_there) {
        traced_none("notify_wait");
        return pdFALSE;
    }
    traced("notify_wait", notified);
    notified &= ~clears_after;
    return pdTRUE;
}

BaseType_t xTaskNotifyStateClear(TaskHandle_t task)
{
    int was_pending = is_pending;
    (void)task;
    is_pending = 0;
    traced("notify_clear", (uint32_t)was_pending);
    return was_pending;
}

uint32_t ulTaskNotifyValueClear(TaskHandle_t task, uint32_t bits)
{
    uint32_t before = notified;
    (void)task;
    notified &= ~bits;
    return counted("notify_value_clear", before);
}

void vTaskDelay(TickType_t ticks)
{
    traced("delay", 0);
    now += ticks;
}

void taskYIELD(void) { traced("yield", 0); }
void taskENTER_CRITICAL(void) { sections++; }
void taskEXIT_CRITICAL(void) { if (sections-- == 0) stop("misuse"); }
void vTaskSuspendAll(void) { traced("suspend_all", 0); }
BaseType_t xTaskResumeAll(void) { traced("resume_all", 0); return pdFALSE; }

/* writes no line: a script's `since` is two calls here */
TickType_t xTaskGetTickCount(void) { return now; }

void rtosim_work(unsigned int ticks) { now += ticks; }
void rtosim_mark(unsigned int number)
{
    printf("%u mark %u\n", now, number);
    if (++calls >= MOST_CALLS) stop("enough");
}

/* a function of the board, which writes to what it is given */
void board_fill(void *to, unsigned size)
{
    for (unsigned at = 0; at < size; at++) ((unsigned char *)to)[at] = 77;
}

void configASSERT(int condition) { if (!condition) stop("check"); }
void vTaskDelete(TaskHandle_t task) { (void)task; stop("pass"); }

BaseType_t xTaskCreate(TaskFunction_t function, const char *name, configSTACK_DEPTH_TYPE depth, void *parameters, UBaseType_t priority,
                       TaskHandle_t *handle)
{
    (void)depth, (void)priority, (void)handle;
    tasks[task_count].function = function, tasks[task_count].name = name, tasks[task_count++].parameters = parameters;
    return pdPASS;
}

/* runs the tasks one after another, each from reset */
void vTaskStartScheduler(void)
{
    for (unsigned at = 0; at < task_count; at++) {
        for (unsigned it = 0; it < object_count; it++) objects[it].count = objects[it].initial;
        now = calls = sections = notified = 0;
        is_pending = 0;
        printf("== %s\n", tasks[at].name);
        if (_setjmp(leaves) == 0) {
            tasks[at].function(tasks[at].parameters);
            printf("pass\n");
        }
    }
}

/* Semaphores, events, mutexes and blackboards. */
#include <string.h>

#include "kernel.h"

/* Begins the creation of an object with a name. */
static void begin_creation(struct call *call, enum rec_service service, const char *name, int64_t n1, int64_t n2, int64_t n3)
{
    begin_call(call, service, n1, n2, n3);
    call->record.name = name;
    call->record.name_length = strlen(name);
}

/* Why an object cannot be created beside those that there are, or NO_ERROR. Its parameters are judged by the caller. */
static enum return_code creation_fault(const struct call *call, unsigned count)
{
    if (call->partition->mode == MODE_NORMAL)
        return INVALID_MODE;
    return count == MOST_OBJECTS ? INVALID_CONFIG : NO_ERROR;
}

enum return_code CREATE_SEMAPHORE(const char *name, int64_t value, int64_t maximum, enum discipline discipline, int64_t *semaphore)
{
    struct call call;
    enum return_code fault;

    begin_creation(&call, REC_CREATE_SEMAPHORE, name, value, maximum, discipline);
    fault = creation_fault(&call, call.partition->semaphore_count);
    if (fault != NO_ERROR)
        return answer(&call, fault);
    if (maximum < 1 || maximum > 32767 || value < 0 || value > maximum)
        return answer(&call, INVALID_PARAM);
    call.partition->semaphores[call.partition->semaphore_count++] =
        (struct semaphore){.name = name, .value = value, .maximum = maximum, .waiters = {.discipline = discipline}};
    *semaphore = call.partition->semaphore_count;
    return answer_value(&call, *semaphore);
}

enum return_code WAIT_SEMAPHORE(int64_t semaphore, int64_t time_out)
{
    struct call call;
    struct semaphore *found;

    begin_call(&call, REC_WAIT_SEMAPHORE, semaphore, time_out, 0);
    found = OBJECT_OF(call.partition->semaphores, call.partition->semaphore_count, semaphore);
    if (found == NULL || time_out < FOR_EVER)
        return answer(&call, INVALID_PARAM);
    if (may_not_wait(&call, time_out))
        return answer(&call, INVALID_MODE);
    if (found->value == 0)
        return wait_in(&call, &found->waiters, time_out);
    found->value--;
    return answer(&call, NO_ERROR);
}

enum return_code SIGNAL_SEMAPHORE(int64_t semaphore)
{
    struct call call;
    struct semaphore *found;

    begin_call(&call, REC_SIGNAL_SEMAPHORE, semaphore, 0, 0);
    found = OBJECT_OF(call.partition->semaphores, call.partition->semaphore_count, semaphore);
    if (found == NULL)
        return answer(&call, INVALID_PARAM);
    if (found->waiters.first != NULL && !is_faulty(call.partition, LOST_WAKE_UP))
        wake(&call, found->waiters.first, NULL);
    else if (found->value == found->maximum)
        return answer(&call, NO_ACTION);
    else
        found->value++;
    return answer(&call, NO_ERROR);
}

enum return_code GET_SEMAPHORE_ID(const char *name, int64_t *semaphore)
{
    struct call call;
    unsigned i = 0;

    begin_creation(&call, REC_GET_SEMAPHORE_ID, name, 0, 0, 0);
    while (i < call.partition->semaphore_count && strcmp(call.partition->semaphores[i].name, name) != 0)
        i++;
    if (i == call.partition->semaphore_count)
        return answer(&call, INVALID_CONFIG);
    *semaphore = (int64_t)i + 1;
    return answer_value(&call, *semaphore);
}

enum return_code CREATE_EVENT(const char *name, int64_t *event)
{
    struct call call;
    enum return_code fault;

    begin_creation(&call, REC_CREATE_EVENT, name, 0, 0, 0);
    fault = creation_fault(&call, call.partition->event_count);
    if (fault != NO_ERROR)
        return answer(&call, fault);
    call.partition->events[call.partition->event_count++] = (struct event){.name = name};
    *event = call.partition->event_count;
    return answer_value(&call, *event);
}

enum return_code SET_EVENT(int64_t event)
{
    struct call call;
    struct event *found;

    begin_call(&call, REC_SET_EVENT, event, 0, 0);
    found = OBJECT_OF(call.partition->events, call.partition->event_count, event);
    if (found == NULL)
        return answer(&call, INVALID_PARAM);
    found->is_up = true;
    wake_all(&call, &found->waiters, NULL);
    return answer(&call, NO_ERROR);
}

enum return_code RESET_EVENT(int64_t event)
{
    struct call call;
    struct event *found;

    begin_call(&call, REC_RESET_EVENT, event, 0, 0);
    found = OBJECT_OF(call.partition->events, call.partition->event_count, event);
    if (found == NULL)
        return answer(&call, INVALID_PARAM);
    found->is_up = false;
    return answer(&call, NO_ERROR);
}

enum return_code WAIT_EVENT(int64_t event, int64_t time_out)
{
    struct call call;
    struct event *found;

    begin_call(&call, REC_WAIT_EVENT, event, time_out, 0);
    found = OBJECT_OF(call.partition->events, call.partition->event_count, event);
    if (found == NULL || time_out < FOR_EVER)
        return answer(&call, INVALID_PARAM);
    if (may_not_wait(&call, time_out))
        return answer(&call, INVALID_MODE);
    return found->is_up ? answer(&call, NO_ERROR) : wait_in(&call, &found->waiters, time_out);
}

enum return_code CREATE_MUTEX(const char *name, int64_t priority, enum discipline discipline, int64_t *mutex)
{
    struct call call;
    enum return_code fault;

    begin_creation(&call, REC_CREATE_MUTEX, name, priority, discipline, 0);
    fault = creation_fault(&call, call.partition->mutex_count);
    if (fault != NO_ERROR)
        return answer(&call, fault);
    if (priority < 1 || priority >= PRIORITIES)
        return answer(&call, INVALID_PARAM);
    call.partition->mutexes[call.partition->mutex_count++] =
        (struct mutex){.name = name, .priority = priority, .waiters = {.discipline = discipline}};
    *mutex = call.partition->mutex_count;
    return answer_value(&call, *mutex);
}

/* A mutex gets an owner, who runs with its priority. */
static void give_mutex(struct mutex *mutex, struct process *owner)
{
    mutex->owner = owner;
    mutex->count = 1;
    owner->owned = mutex;
    owner->retained_priority = owner->priority;
    set_priority(owner, mutex->priority);
}

enum return_code ACQUIRE_MUTEX(int64_t mutex, int64_t time_out)
{
    struct call call;
    struct mutex *found;

    begin_call(&call, REC_ACQUIRE_MUTEX, mutex, time_out, 0);
    found = OBJECT_OF(call.partition->mutexes, call.partition->mutex_count, mutex);
    if (found == NULL || time_out < FOR_EVER)
        return answer(&call, INVALID_PARAM);
    if (call.caller->number == 0 || (call.caller->owned != NULL && call.caller->owned != found) ||
        call.caller->priority > found->priority)
        return answer(&call, INVALID_MODE);
    if (found->owner != NULL && found->owner != call.caller)
        return wait_in(&call, &found->waiters, time_out);
    if (found->owner == call.caller)
        found->count++;
    else
        give_mutex(found, call.caller);
    return answer(&call, NO_ERROR);
}

/* The last release hands the mutex to the first waiter, who gets its priority before it becomes ready. */
enum return_code RELEASE_MUTEX(int64_t mutex)
{
    struct call call;
    struct mutex *found;

    begin_call(&call, REC_RELEASE_MUTEX, mutex, 0, 0);
    found = OBJECT_OF(call.partition->mutexes, call.partition->mutex_count, mutex);
    if (found == NULL)
        return answer(&call, INVALID_PARAM);
    if (found->owner != call.caller)
        return answer(&call, INVALID_MODE);
    if (--found->count > 0)
        return answer(&call, NO_ERROR);
    call.caller->owned = NULL;
    if (!is_faulty(call.partition, PRIORITY_KEPT))
        set_priority(call.caller, call.caller->retained_priority);
    found->owner = NULL;
    if (found->waiters.first != NULL) {
        give_mutex(found, found->waiters.first);
        wake(&call, found->owner, NULL);
    }
    return answer(&call, NO_ERROR);
}

enum return_code GET_MUTEX_STATUS(int64_t mutex, struct mutex_status *status)
{
    struct call call;
    const struct mutex *found;

    begin_call(&call, REC_GET_MUTEX_STATUS, mutex, 0, 0);
    found = OBJECT_OF(call.partition->mutexes, call.partition->mutex_count, mutex);
    if (found == NULL)
        return answer(&call, INVALID_PARAM);
    status->owner = found->owner == NULL ? 0 : found->owner->number;
    status->waiting = waiting_count(&found->waiters);
    status->lock_count = found->count;
    call.record.values[1] = status->waiting;
    call.record.values[2] = status->lock_count;
    call.record.values[0] = status->owner;
    call.record.value_count = 3;
    return answer(&call, NO_ERROR);
}

enum return_code CREATE_BLACKBOARD(const char *name, int64_t size, int64_t *blackboard)
{
    struct call call;
    enum return_code fault;

    begin_creation(&call, REC_CREATE_BLACKBOARD, name, size, 0, 0);
    fault = creation_fault(&call, call.partition->blackboard_count);
    if (fault != NO_ERROR)
        return answer(&call, fault);
    if (size < 1 || size > MESSAGE_BYTES)
        return answer(&call, INVALID_PARAM);
    call.partition->blackboards[call.partition->blackboard_count++] = (struct blackboard){.name = name, .size = size};
    *blackboard = call.partition->blackboard_count;
    return answer_value(&call, *blackboard);
}

enum return_code DISPLAY_BLACKBOARD(int64_t blackboard, const void *message, int64_t length)
{
    struct call call;
    struct blackboard *found;

    begin_call(&call, REC_DISPLAY_BLACKBOARD, blackboard, length, 0);
    call.record.message = message;
    found = OBJECT_OF(call.partition->blackboards, call.partition->blackboard_count, blackboard);
    if (found == NULL || length < 1 || length > found->size)
        return answer(&call, INVALID_PARAM);
    found->is_occupied = true;
    found->message.length = (size_t)length;
    memcpy(found->message.bytes, message, (size_t)length);
    wake_all(&call, &found->readers, &found->message);
    return answer(&call, NO_ERROR);
}

enum return_code READ_BLACKBOARD(int64_t blackboard, int64_t time_out, void *message, size_t *length)
{
    struct call call;
    struct blackboard *found;
    enum return_code code;

    begin_call(&call, REC_READ_BLACKBOARD, blackboard, time_out, 0);
    found = OBJECT_OF(call.partition->blackboards, call.partition->blackboard_count, blackboard);
    if (found == NULL || time_out < FOR_EVER)
        return answer(&call, INVALID_PARAM);
    if (may_not_wait(&call, time_out))
        return answer(&call, INVALID_MODE);
    code = found->is_occupied ? answer_message(&call, &found->message) : wait_in(&call, &found->readers, time_out);
    if (code == NO_ERROR)
        take_message(call.caller, message, length);
    return code;
}

enum return_code CLEAR_BLACKBOARD(int64_t blackboard)
{
    struct call call;
    struct blackboard *found;

    begin_call(&call, REC_CLEAR_BLACKBOARD, blackboard, 0, 0);
    found = OBJECT_OF(call.partition->blackboards, call.partition->blackboard_count, blackboard);
    if (found == NULL)
        return answer(&call, INVALID_PARAM);
    found->is_occupied = false;
    return answer(&call, NO_ERROR);
}

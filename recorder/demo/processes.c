/* The services on processes, time and the partition's mode. */
#include <string.h>

#include "kernel.h"

static struct process *process_of(const struct call *call, int64_t number)
{
    return OBJECT_OF(call->partition->processes + 1, call->partition->process_count, number);
}

enum return_code CREATE_PROCESS(const char *name, void (*entry)(void), int64_t priority, int64_t period, int64_t *process)
{
    struct call call;
    struct process *created;
    uint32_t number;

    begin_call(&call, REC_CREATE_PROCESS, priority, period, 0);
    call.record.name = name;
    call.record.name_length = strlen(name);
    if (call.partition->mode == MODE_NORMAL)
        return answer(&call, INVALID_MODE);
    if (priority < 1 || priority >= PRIORITIES || (period != APERIODIC && period < 1))
        return answer(&call, INVALID_PARAM);
    for (number = 1; number <= call.partition->process_count; number++)
        if (strcmp(call.partition->processes[number].name, name) == 0)
            return answer(&call, NO_ACTION);
    if (number > MOST_PROCESSES || (period != APERIODIC && period % call.partition->setup->period != 0))
        return answer(&call, INVALID_CONFIG);
    created = &call.partition->processes[number];
    call.partition->process_count = number;
    created->number = number;
    strncpy(created->name, name, REC_NAME_BYTES);
    created->entry = entry;
    created->partition = call.partition;
    created->core = &kernel.cores[call.partition->setup->cores[0]];
    created->base_priority = created->priority = priority;
    created->period = period;
    *process = number;
    return answer_value(&call, number);
}

enum return_code INITIALIZE_PROCESS_CORE_AFFINITY(int64_t process, int64_t core)
{
    struct call call;
    struct process *target;
    unsigned i = 0;

    begin_call(&call, REC_INITIALIZE_PROCESS_CORE_AFFINITY, process, core, 0);
    target = process_of(&call, process);
    while (i < call.partition->setup->core_count && (int64_t)call.partition->setup->cores[i] != core)
        i++;
    if (target == NULL)
        return answer(&call, INVALID_PARAM);
    if (i == call.partition->setup->core_count)
        return answer(&call, INVALID_CONFIG);
    if (call.partition->mode == MODE_NORMAL)
        return answer(&call, INVALID_MODE);
    target->core = &kernel.cores[core];
    return answer(&call, NO_ERROR);
}

/* A started process enters NORMAL: it waits for its first release if it is periodic. Answers whether it is ready at once. */
static bool enters_normal(struct process *process)
{
    int64_t period = process->partition->setup->period;

    process->waits_for_normal = false;
    if (process->period == APERIODIC)
        return true;
    process->waits_for_release = true;
    enter_time_outs(process, (process->core->time / period + 1) * period);
    return false;
}

enum return_code START(int64_t process)
{
    struct call call;
    struct process *target;

    begin_call(&call, REC_START, process, 0, 0);
    target = process_of(&call, process);
    if (target == NULL)
        return answer(&call, INVALID_PARAM);
    if (target->state != DORMANT)
        return answer(&call, NO_ACTION);
    target->priority = target->base_priority;
    target->state = WAITING;
    target->waits_in = REC_START;
    target->must_begin = true;
    if (call.partition->mode != MODE_NORMAL)
        target->waits_for_normal = true;
    else if (enters_normal(target))
        make_ready(target);
    return answer(&call, NO_ERROR);
}

/* A process becomes dormant, whatever it did. */
static void halt(struct process *process)
{
    if (is_ready(process))
        leave_run_queue(process);
    end_wait(process);
    process->state = DORMANT;
    process->is_suspended = process->waits_for_normal = process->waits_for_release = false;
    process->owned = NULL;
    process->work = 0;
    interrupt(process->core);
}

/* STOP of a process that runs on another core just now is not in the demo, nor is STOP of the owner of a mutex. */
enum return_code STOP(int64_t process)
{
    struct call call;
    struct process *target;

    begin_call(&call, REC_STOP, process, 0, 0);
    target = process_of(&call, process);
    if (target == NULL || target == call.caller)
        return answer(&call, INVALID_PARAM);
    if (target->state == DORMANT)
        return answer(&call, NO_ACTION);
    halt(target);
    return answer(&call, NO_ERROR);
}

void STOP_SELF(void)
{
    struct call call;

    begin_call(&call, REC_STOP_SELF, 0, 0, 0);
    halt(call.caller);
    leave_for_ever(&call);
}

enum return_code SUSPEND(int64_t process)
{
    struct call call;
    struct process *target;

    begin_call(&call, REC_SUSPEND, process, 0, 0);
    target = process_of(&call, process);
    if (target == NULL || target == call.caller)
        return answer(&call, INVALID_PARAM);
    if (target->state == DORMANT || target->period != APERIODIC)
        return answer(&call, INVALID_MODE);
    if (target->is_suspended || (target->state == WAITING && target->waits_in == REC_SUSPEND_SELF))
        return answer(&call, NO_ACTION);
    if (is_ready(target))
        leave_run_queue(target);
    target->is_suspended = true;
    interrupt(target->core);
    return answer(&call, NO_ERROR);
}

enum return_code SUSPEND_SELF(int64_t time_out)
{
    struct call call;

    begin_call(&call, REC_SUSPEND_SELF, time_out, 0, 0);
    if (time_out < FOR_EVER)
        return answer(&call, INVALID_PARAM);
    if (call.caller->period != APERIODIC || may_not_wait(&call, FOR_EVER))
        return answer(&call, INVALID_MODE);
    if (time_out == 0)
        return answer(&call, NO_ERROR);
    return wait_until(&call, time_out != FOR_EVER, call.core->time + time_out);
}

/* A process that suspended itself is woken. One that another process suspended goes on as it is, and nobody is woken. */
enum return_code RESUME(int64_t process)
{
    struct call call;
    struct process *target;

    begin_call(&call, REC_RESUME, process, 0, 0);
    target = process_of(&call, process);
    if (target == NULL || target == call.caller)
        return answer(&call, INVALID_PARAM);
    if (target->state == DORMANT || target->period != APERIODIC)
        return answer(&call, INVALID_MODE);
    if (target->state == WAITING && target->waits_in == REC_SUSPEND_SELF) {
        wake(&call, target, NULL);
        return answer(&call, NO_ERROR);
    }
    if (!target->is_suspended)
        return answer(&call, NO_ACTION);
    target->is_suspended = false;
    if (target->state == READY)
        make_ready(target);
    return answer(&call, NO_ERROR);
}

enum return_code SET_PRIORITY(int64_t process, int64_t priority)
{
    struct call call;
    struct process *target;

    begin_call(&call, REC_SET_PRIORITY, process, priority, 0);
    target = process_of(&call, process);
    if (target == NULL || priority < 1 || priority >= PRIORITIES)
        return answer(&call, INVALID_PARAM);
    if (target->state == DORMANT)
        return answer(&call, INVALID_MODE);
    set_priority(target, priority);
    if (is_ready(target))
        go_behind(target);
    return answer(&call, NO_ERROR);
}

enum return_code GET_MY_ID(int64_t *process)
{
    struct call call;

    begin_call(&call, REC_GET_MY_ID, 0, 0, 0);
    if (call.caller->number == 0)
        return answer(&call, INVALID_MODE);
    *process = call.caller->number;
    return answer_value(&call, *process);
}

enum return_code TIMED_WAIT(int64_t delay)
{
    struct call call;

    begin_call(&call, REC_TIMED_WAIT, delay, 0, 0);
    if (delay < 0)
        return answer(&call, INVALID_PARAM);
    if (may_not_wait(&call, FOR_EVER))
        return answer(&call, INVALID_MODE);
    if (delay > 0)
        return wait_until(&call, true, call.core->time + delay);
    go_behind(call.caller);
    return answer(&call, NO_ERROR);
}

enum return_code PERIODIC_WAIT(void)
{
    struct call call;
    int64_t release;

    begin_call(&call, REC_PERIODIC_WAIT, 0, 0, 0);
    if (call.caller->period == APERIODIC || may_not_wait(&call, FOR_EVER))
        return answer(&call, INVALID_MODE);
    release = call.caller->last_release + call.caller->period;
    if (call.core->time < release) {
        call.caller->waits_for_release = true;
        return wait_until(&call, true, release);
    }
    call.caller->last_release = release;
    go_behind(call.caller);
    return answer(&call, NO_ERROR);
}

enum return_code GET_TIME(int64_t *time)
{
    struct call call;

    begin_call(&call, REC_GET_TIME, 0, 0, 0);
    *time = call.core->time;
    return answer_value(&call, *time);
}

/* The initialising process ends, and the processes that were started enter NORMAL together. */
static void enter_normal(struct partition *partition)
{
    struct process *started[MOST_PROCESSES];
    size_t count = 0;
    uint32_t number;

    partition->mode = MODE_NORMAL;
    for (number = 1; number <= partition->process_count; number++) {
        struct process *process = &partition->processes[number];
        if (process->waits_for_normal && enters_normal(process))
            started[count++] = process;
    }
    make_all_ready(started, count);
    halt(&partition->processes[0]);
}

/* Nothing is left of the partition but what its channels hold, and its initialising process begins again unless the mode is IDLE. */
static void restart(struct partition *partition, enum mode mode)
{
    uint32_t number;

    for (number = 0; number <= partition->process_count; number++)
        halt(&partition->processes[number]);
    partition->process_count = partition->buffer_count = partition->blackboard_count = partition->semaphore_count = 0;
    partition->event_count = partition->mutex_count = partition->sampling_port_count = partition->queuing_port_count = 0;
    partition->mode = mode;
    if (mode == MODE_IDLE)
        return;
    partition->processes[0].must_begin = true;
    make_ready(&partition->processes[0]);
}

/* In the demo, no initialising process restarts its partition, and no partition on several cores is restarted. */
enum return_code SET_PARTITION_MODE(enum mode mode)
{
    struct call call;

    begin_call(&call, REC_SET_PARTITION_MODE, mode, 0, 0);
    if ((int)mode < MODE_IDLE || mode > MODE_NORMAL)
        return answer(&call, INVALID_PARAM);
    if (mode == MODE_NORMAL && call.partition->mode == MODE_NORMAL)
        return answer(&call, NO_ACTION);
    if (mode == MODE_WARM_START && call.partition->mode == MODE_COLD_START)
        return answer(&call, INVALID_MODE);
    if (mode == MODE_NORMAL)
        enter_normal(call.partition);
    else
        restart(call.partition, mode);
    leave_for_ever(&call);
    return NO_ERROR;
}

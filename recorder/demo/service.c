/* The way of a call through the kernel, and the moments at which it is recorded. */
#include <string.h>

#include "kernel.h"

static const enum rec_outcome RECORDED[] = {
    [NO_ERROR] = REC_NO_ERROR,           [NO_ACTION] = REC_NO_ACTION,       [NOT_AVAILABLE] = REC_NOT_AVAILABLE,
    [INVALID_PARAM] = REC_INVALID_PARAM, [INVALID_CONFIG] = REC_INVALID_CONFIG, [INVALID_MODE] = REC_INVALID_MODE,
    [TIMED_OUT] = REC_TIMED_OUT,
};

/* What is pending on the core comes first: another core may have made ready a process that goes before the caller. */
void begin_call(struct call *call, enum rec_service service, int64_t n1, int64_t n2, int64_t n3)
{
    struct core *core = this_core();

    kernel_lock();
    settle(core);
    call->core = core;
    call->caller = core->occupant;
    call->partition = core->occupant->partition;
    call->record = (struct rec_call){
        .caller = {call->partition->number, call->caller->number},
        .service = service,
        .n1 = n1,
        .n2 = n2,
        .n3 = n3,
        .priority = (uint8_t)call->caller->priority,
        .woken = call->woken,
    };
}

/* The call takes effect: its record is made under the lock under which it changes the kernel's state. */
static void record_call(struct call *call, enum rec_outcome outcome)
{
    call->record.outcome = outcome;
    rec_call(call->core->recorder, &call->record);
    note_order(call->core);
}

/* The caller goes on when it is the choice of its core again. Its return is recorded then, just before it leaves the kernel. */
static enum return_code leave(struct call *call)
{
    const struct process *caller = call->caller;
    struct rec_return ret = {.caller = call->record.caller, .service = call->record.service};

    settle(call->core);
    ret.code = RECORDED[caller->result.code];
    ret.value_count = caller->result.value_count;
    memcpy(ret.values, caller->result.values, sizeof ret.values);
    ret.data = caller->result.data.bytes;
    ret.data_length = caller->result.data.length;
    rec_ret(call->core->recorder, &ret);
    note_order(call->core);
    kernel_unlock();
    return caller->result.code;
}

enum return_code answer(struct call *call, enum return_code code)
{
    struct result *result = &call->caller->result;

    *result = (struct result){.code = code, .value_count = call->record.value_count};
    memcpy(result->values, call->record.values, sizeof result->values);
    if (call->record.data_length > 0) {
        result->data.length = call->record.data_length;
        memcpy(result->data.bytes, call->record.data, call->record.data_length);
    }
    record_call(call, RECORDED[code]);
    return leave(call);
}

enum return_code answer_value(struct call *call, int64_t value)
{
    call->record.value_count = 1;
    call->record.values[0] = value;
    return answer(call, NO_ERROR);
}

enum return_code answer_message(struct call *call, const struct message *message)
{
    call->record.data = message->bytes;
    call->record.data_length = message->length;
    return answer(call, NO_ERROR);
}

enum return_code wait_until(struct call *call, bool has_due_time, int64_t due_time)
{
    struct process *caller = call->caller;

    leave_run_queue(caller);
    caller->state = WAITING;
    caller->waits_in = call->record.service;
    if (has_due_time)
        enter_time_outs(caller, due_time);
    record_call(call, REC_WAIT);
    return leave(call);
}

enum return_code wait_in(struct call *call, struct waiting_queue *queue, int64_t time_out)
{
    if (time_out == 0)
        return answer(call, NOT_AVAILABLE);
    enter_waiting_queue(queue, call->caller);
    return wait_until(call, time_out != FOR_EVER, call->core->time + time_out);
}

void leave_for_ever(struct call *call)
{
    record_call(call, REC_NONE);
    settle(call->core);
}

/* Makes the result of a wait that a call ends. */
static void end_with(struct call *call, struct process *process, const struct message *message)
{
    process->result = (struct result){.code = NO_ERROR};
    if (message != NULL)
        process->result.data = *message;
    call->woken[call->record.woken_count++] = (struct rec_process){process->partition->number, process->number};
}

void wake(struct call *call, struct process *process, const struct message *message)
{
    end_wait(process);
    end_with(call, process, message);
    make_ready(process);
}

void wake_all(struct call *call, struct waiting_queue *queue, const struct message *message)
{
    struct process *woken[MOST_WOKEN];
    size_t count = 0;

    while (queue->first != NULL && count < MOST_WOKEN) {
        woken[count] = queue->first;
        end_wait(woken[count]);
        end_with(call, woken[count++], message);
    }
    make_all_ready(woken, count);
}

void take_message(const struct process *caller, void *message, size_t *length)
{
    *length = caller->result.data.length;
    memcpy(message, caller->result.data.bytes, *length);
}

bool may_not_wait(const struct call *call, int64_t time_out)
{
    return time_out != 0 && (call->caller->number == 0 || call->caller->owned != NULL);
}

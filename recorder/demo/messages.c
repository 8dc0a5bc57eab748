/* Queues of messages, buffers, and ports. */
#include <string.h>

#include "kernel.h"

int64_t waiting_count(const struct waiting_queue *queue)
{
    const struct process *process;
    int64_t count = 0;

    for (process = queue->first; process != NULL; process = process->next_waiting)
        count++;
    return count;
}

static void append(struct message_queue *queue, const struct message *message)
{
    queue->messages[(queue->oldest + queue->count++) % MOST_MESSAGES] = *message;
}

/* The first receiver that waits gets the message. If none waits, the message is queued, or its sender waits with it. */
enum return_code send(struct call *call, struct message_queue *queue, const void *message, int64_t length, int64_t time_out)
{
    struct message *sent = &call->caller->sent;

    sent->length = (size_t)length;
    memcpy(sent->bytes, message, (size_t)length);
    if (queue->receivers.first != NULL)
        wake(call, queue->receivers.first, sent);
    else if ((int64_t)queue->count < queue->capacity)
        append(queue, sent);
    else
        return wait_in(call, &queue->senders, time_out);
    return answer(call, NO_ERROR);
}

/* The oldest message leaves the queue, and the message of the first sender that waits takes the room. */
enum return_code receive(struct call *call, struct message_queue *queue, int64_t time_out)
{
    struct message oldest;

    if (queue->count == 0)
        return wait_in(call, &queue->receivers, time_out);
    oldest = queue->messages[queue->oldest];
    queue->oldest = (queue->oldest + 1) % MOST_MESSAGES;
    queue->count--;
    if (queue->senders.first != NULL) {
        append(queue, &queue->senders.first->sent);
        wake(call, queue->senders.first, NULL);
    }
    return answer_message(call, &oldest);
}

/* Answers with how many messages a queue holds, and how many processes wait. */
static enum return_code answer_status(struct call *call, const struct message_queue *queue, int64_t waiting, struct buffer_status *status)
{
    status->messages = (int64_t)queue->count;
    status->waiting = waiting;
    call->record.value_count = 2;
    call->record.values[0] = status->messages;
    call->record.values[1] = status->waiting;
    return answer(call, NO_ERROR);
}

/* Buffers. */

enum return_code CREATE_BUFFER(const char *name, int64_t size, int64_t capacity, enum discipline discipline, int64_t *buffer)
{
    struct call call;

    begin_call(&call, REC_CREATE_BUFFER, size, capacity, discipline);
    call.record.name = name;
    call.record.name_length = strlen(name);
    if (call.partition->mode == MODE_NORMAL)
        return answer(&call, INVALID_MODE);
    if (call.partition->buffer_count == MOST_OBJECTS)
        return answer(&call, INVALID_CONFIG);
    if (size < 1 || size > MESSAGE_BYTES || capacity < 1 || capacity > MOST_MESSAGES)
        return answer(&call, INVALID_PARAM);
    call.partition->buffers[call.partition->buffer_count++] = (struct buffer){
        .name = name,
        .queue = {.size = size, .capacity = capacity, .senders = {.discipline = discipline}, .receivers = {.discipline = discipline}},
    };
    *buffer = call.partition->buffer_count;
    return answer_value(&call, *buffer);
}

enum return_code SEND_BUFFER(int64_t buffer, const void *message, int64_t length, int64_t time_out)
{
    struct call call;
    struct buffer *found;

    begin_call(&call, REC_SEND_BUFFER, buffer, length, time_out);
    call.record.message = message;
    found = OBJECT_OF(call.partition->buffers, call.partition->buffer_count, buffer);
    if (found == NULL || time_out < FOR_EVER || length < 1 || length > found->queue.size)
        return answer(&call, INVALID_PARAM);
    if (may_not_wait(&call, time_out))
        return answer(&call, INVALID_MODE);
    return send(&call, &found->queue, message, length, time_out);
}

enum return_code RECEIVE_BUFFER(int64_t buffer, int64_t time_out, void *message, size_t *length)
{
    struct call call;
    struct buffer *found;
    enum return_code code;

    begin_call(&call, REC_RECEIVE_BUFFER, buffer, time_out, 0);
    found = OBJECT_OF(call.partition->buffers, call.partition->buffer_count, buffer);
    if (found == NULL || time_out < FOR_EVER)
        return answer(&call, INVALID_PARAM);
    if (may_not_wait(&call, time_out))
        return answer(&call, INVALID_MODE);
    code = receive(&call, &found->queue, time_out);
    if (code == NO_ERROR)
        take_message(call.caller, message, length);
    return code;
}

enum return_code GET_BUFFER_STATUS(int64_t buffer, struct buffer_status *status)
{
    struct call call;
    const struct buffer *found;

    begin_call(&call, REC_GET_BUFFER_STATUS, buffer, 0, 0);
    found = OBJECT_OF(call.partition->buffers, call.partition->buffer_count, buffer);
    if (found == NULL)
        return answer(&call, INVALID_PARAM);
    return answer_status(&call, &found->queue, waiting_count(&found->queue.senders) + waiting_count(&found->queue.receivers), status);
}

/* Ports. */

/* Whether this end of a channel is the port of the partition. */
static bool is_end(const struct channel_end *end, const struct partition *partition, const char *port)
{
    return end->partition == partition->number && strcmp(end->port, port) == 0;
}

/* The channel to which a port of this kind and direction leads, or NULL. It has the discipline of that end. */
static struct channel *channel_of(const struct partition *partition, const char *port, bool is_queuing, enum direction direction,
                                  enum discipline *discipline)
{
    unsigned i, j;

    for (i = 0; i < kernel.module->channel_count; i++) {
        const struct channel_setup *setup = kernel.channels[i].setup;
        bool is_here = false;
        *discipline = direction == SOURCE ? setup->source.discipline : setup->destinations[0].discipline;
        if (direction == SOURCE)
            is_here = is_end(&setup->source, partition, port);
        for (j = 0; direction == DESTINATION && j < setup->destination_count; j++)
            is_here = is_here || is_end(&setup->destinations[j], partition, port);
        if (is_here && setup->is_queuing == is_queuing)
            return &kernel.channels[i];
    }
    return NULL;
}

/* A call that goes through a port records the channel, unless it returns the code of an error. */
static void use_channel(struct call *call, const struct channel *channel)
{
    call->record.has_channel = true;
    call->record.channel = channel->number;
}

enum return_code CREATE_SAMPLING_PORT(const char *name, int64_t size, enum direction direction, int64_t refresh, int64_t *port)
{
    struct call call;
    enum discipline discipline;
    struct channel *channel;

    begin_call(&call, REC_CREATE_SAMPLING_PORT, size, direction, refresh);
    call.record.name = name;
    call.record.name_length = strlen(name);
    channel = channel_of(call.partition, name, false, direction, &discipline);
    if (call.partition->mode == MODE_NORMAL)
        return answer(&call, INVALID_MODE);
    if (channel == NULL || channel->setup->size != size || (direction == DESTINATION && channel->setup->refresh != refresh) ||
        call.partition->sampling_port_count == MOST_OBJECTS)
        return answer(&call, INVALID_CONFIG);
    call.partition->sampling_ports[call.partition->sampling_port_count++] =
        (struct port){.name = name, .channel = channel, .direction = direction};
    *port = call.partition->sampling_port_count;
    return answer_value(&call, *port);
}

enum return_code WRITE_SAMPLING_MESSAGE(int64_t port, const void *message, int64_t length)
{
    struct call call;
    struct port *found;

    begin_call(&call, REC_WRITE_SAMPLING_MESSAGE, port, length, 0);
    call.record.message = message;
    found = OBJECT_OF(call.partition->sampling_ports, call.partition->sampling_port_count, port);
    if (found == NULL || length < 1)
        return answer(&call, INVALID_PARAM);
    if (length > found->channel->setup->size)
        return answer(&call, INVALID_CONFIG);
    if (found->direction != SOURCE)
        return answer(&call, INVALID_MODE);
    use_channel(&call, found->channel);
    found->channel->is_written = true;
    found->channel->written_at = call.core->time;
    found->channel->sample.length = (size_t)length;
    memcpy(found->channel->sample.bytes, message, (size_t)length);
    return answer(&call, NO_ERROR);
}

enum return_code READ_SAMPLING_MESSAGE(int64_t port, void *message, size_t *length, bool *is_valid)
{
    struct call call;
    struct port *found;
    enum return_code code;

    begin_call(&call, REC_READ_SAMPLING_MESSAGE, port, 0, 0);
    found = OBJECT_OF(call.partition->sampling_ports, call.partition->sampling_port_count, port);
    if (found == NULL)
        return answer(&call, INVALID_PARAM);
    if (found->direction != DESTINATION)
        return answer(&call, INVALID_MODE);
    use_channel(&call, found->channel);
    *is_valid = found->channel->is_written && (call.core->time - found->channel->written_at <= found->channel->setup->refresh ||
                                               is_faulty(call.partition, STALE_CALLED_VALID));
    found->was_valid = *is_valid;
    call.record.value_count = 1;
    call.record.values[0] = *is_valid;
    if (!found->channel->is_written)
        return answer(&call, NO_ACTION);
    code = answer_message(&call, &found->channel->sample);
    take_message(call.caller, message, length);
    return code;
}

enum return_code GET_SAMPLING_PORT_STATUS(int64_t port, bool *was_valid)
{
    struct call call;
    const struct port *found;

    begin_call(&call, REC_GET_SAMPLING_PORT_STATUS, port, 0, 0);
    found = OBJECT_OF(call.partition->sampling_ports, call.partition->sampling_port_count, port);
    if (found == NULL)
        return answer(&call, INVALID_PARAM);
    *was_valid = found->was_valid;
    return answer_value(&call, *was_valid);
}

enum return_code CREATE_QUEUING_PORT(const char *name, int64_t size, int64_t capacity, enum direction direction,
                                     enum discipline discipline, int64_t *port)
{
    struct call call;
    enum discipline configured;
    struct channel *channel;

    begin_call(&call, REC_CREATE_QUEUING_PORT, size, capacity, (int64_t)direction + 2 * (int64_t)discipline);
    call.record.name = name;
    call.record.name_length = strlen(name);
    channel = channel_of(call.partition, name, true, direction, &configured);
    if (call.partition->mode == MODE_NORMAL)
        return answer(&call, INVALID_MODE);
    if (channel == NULL || channel->setup->size != size || channel->setup->capacity != capacity || configured != discipline ||
        call.partition->queuing_port_count == MOST_OBJECTS)
        return answer(&call, INVALID_CONFIG);
    call.partition->queuing_ports[call.partition->queuing_port_count++] =
        (struct port){.name = name, .channel = channel, .direction = direction};
    *port = call.partition->queuing_port_count;
    return answer_value(&call, *port);
}

enum return_code SEND_QUEUING_MESSAGE(int64_t port, const void *message, int64_t length, int64_t time_out)
{
    struct call call;
    struct port *found;

    begin_call(&call, REC_SEND_QUEUING_MESSAGE, port, length, time_out);
    call.record.message = message;
    found = OBJECT_OF(call.partition->queuing_ports, call.partition->queuing_port_count, port);
    if (found == NULL || time_out < FOR_EVER || length < 1)
        return answer(&call, INVALID_PARAM);
    if (length > found->channel->setup->size)
        return answer(&call, INVALID_CONFIG);
    if (found->direction != SOURCE || may_not_wait(&call, time_out))
        return answer(&call, INVALID_MODE);
    use_channel(&call, found->channel);
    return send(&call, &found->channel->queue, message, length, time_out);
}

enum return_code RECEIVE_QUEUING_MESSAGE(int64_t port, int64_t time_out, void *message, size_t *length)
{
    struct call call;
    struct port *found;
    enum return_code code;

    begin_call(&call, REC_RECEIVE_QUEUING_MESSAGE, port, time_out, 0);
    found = OBJECT_OF(call.partition->queuing_ports, call.partition->queuing_port_count, port);
    if (found == NULL || time_out < FOR_EVER)
        return answer(&call, INVALID_PARAM);
    if (found->direction != DESTINATION || may_not_wait(&call, time_out))
        return answer(&call, INVALID_MODE);
    use_channel(&call, found->channel);
    code = receive(&call, &found->channel->queue, time_out);
    if (code == NO_ERROR)
        take_message(call.caller, message, length);
    return code;
}

enum return_code GET_QUEUING_PORT_ID(const char *name, int64_t *port)
{
    struct call call;
    unsigned i = 0;

    begin_call(&call, REC_GET_QUEUING_PORT_ID, 0, 0, 0);
    call.record.name = name;
    call.record.name_length = strlen(name);
    while (i < call.partition->queuing_port_count && strcmp(call.partition->queuing_ports[i].name, name) != 0)
        i++;
    if (i == call.partition->queuing_port_count)
        return answer(&call, INVALID_CONFIG);
    *port = (int64_t)i + 1;
    return answer_value(&call, *port);
}

enum return_code GET_QUEUING_PORT_STATUS(int64_t port, struct buffer_status *status)
{
    struct call call;
    struct port *found;

    begin_call(&call, REC_GET_QUEUING_PORT_STATUS, port, 0, 0);
    found = OBJECT_OF(call.partition->queuing_ports, call.partition->queuing_port_count, port);
    if (found == NULL)
        return answer(&call, INVALID_PARAM);
    use_channel(&call, found->channel);
    return answer_status(&call, &found->channel->queue,
                         waiting_count(found->direction == SOURCE ? &found->channel->queue.senders : &found->channel->queue.receivers), status);
}

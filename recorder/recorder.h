/*
 * Records what the APEX of one core does, as the rows that apexcheck reads.
 *
 * A kernel opens one recorder for each core, and calls it at the moments that README.md lists. These calls put a small binary
 * entry into a ring: they take no lock, allocate nothing and wait for nobody, and their time is bounded by the lengths of the
 * messages and the number of woken processes. A thread of its own, or an idle task, writes the rows with `rec_drain`.
 *
 * One core records and one task drains. On its core the kernel must not interrupt a call of this header by another one: it makes
 * them with interrupts masked, or under the lock that guards its scheduler.
 *
 * No record is lost in silence. If the ring is full, the record is counted, and the drain writes a row of the kind `lost` where
 * it is missing. Such a row is no record, and apexcheck refuses the recording there: `REFUSED row core=C seq=S fault=BadKind`.
 */
#ifndef RECORDER_H
#define RECORDER_H

#include <stdbool.h>
#include <stddef.h>
#include <stdint.h>

/* The limits of a recording. A record that exceeds one of them has no row, and is counted as lost. */
#define REC_CORES 16
#define REC_MESSAGE_BYTES 8192
#define REC_NAME_BYTES 32
#define REC_WOKEN 4096

/*
 * The format of the rows: format 2 also has the services that return the number of a name, or the status of an object or a port. Format 3
 * has all services, messages from and to the outside of the module, and errors.
 */
enum rec_format { REC_FORMAT_1 = 1, REC_FORMAT_2 = 2, REC_FORMAT_3 = 3 };

/*
 * The services, in the order of the table in docs/FORMATS.md, each with the members of `struct rec_call` that it needs besides those
 * that each call has. Those from GET_BUFFER_ID on are in no row of format 1, and those from GET_PARTITION_STATUS on in format 3 alone. The
 * time capacity of CREATE_PROCESS is in its `n3`, -1 for none; only format 3 has it.
 */
#define REC_EACH_SERVICE(service)                                                 \
    service(CREATE_PROCESS, HAS_N1 | HAS_N2 | HAS_N3_LATER | HAS_NAME)            \
    service(INITIALIZE_PROCESS_CORE_AFFINITY, HAS_N1 | HAS_N2)                    \
    service(START, HAS_N1)                                                        \
    service(STOP, HAS_N1)                                                         \
    service(STOP_SELF, 0)                                                         \
    service(SUSPEND, HAS_N1)                                                      \
    service(SUSPEND_SELF, HAS_N1)                                                 \
    service(RESUME, HAS_N1)                                                       \
    service(SET_PRIORITY, HAS_N1 | HAS_N2)                                        \
    service(GET_MY_ID, 0)                                                         \
    service(TIMED_WAIT, HAS_N1)                                                   \
    service(PERIODIC_WAIT, 0)                                                     \
    service(GET_TIME, 0)                                                          \
    service(SET_PARTITION_MODE, HAS_N1)                                           \
    service(CREATE_BUFFER, HAS_N1 | HAS_N2 | HAS_N3 | HAS_NAME)                   \
    service(SEND_BUFFER, HAS_N1 | HAS_N2 | HAS_N3 | HAS_MESSAGE)                  \
    service(RECEIVE_BUFFER, HAS_N1 | HAS_N2)                                      \
    service(CREATE_BLACKBOARD, HAS_N1 | HAS_NAME)                                 \
    service(DISPLAY_BLACKBOARD, HAS_N1 | HAS_N2 | HAS_MESSAGE)                    \
    service(READ_BLACKBOARD, HAS_N1 | HAS_N2)                                     \
    service(CLEAR_BLACKBOARD, HAS_N1)                                             \
    service(CREATE_SEMAPHORE, HAS_N1 | HAS_N2 | HAS_N3 | HAS_NAME)                \
    service(WAIT_SEMAPHORE, HAS_N1 | HAS_N2)                                      \
    service(SIGNAL_SEMAPHORE, HAS_N1)                                             \
    service(CREATE_EVENT, HAS_NAME)                                               \
    service(SET_EVENT, HAS_N1)                                                    \
    service(RESET_EVENT, HAS_N1)                                                  \
    service(WAIT_EVENT, HAS_N1 | HAS_N2)                                          \
    service(CREATE_MUTEX, HAS_N1 | HAS_N2 | HAS_NAME)                             \
    service(ACQUIRE_MUTEX, HAS_N1 | HAS_N2)                                       \
    service(RELEASE_MUTEX, HAS_N1)                                                \
    service(CREATE_SAMPLING_PORT, HAS_N1 | HAS_N2 | HAS_N3 | HAS_NAME)            \
    service(WRITE_SAMPLING_MESSAGE, HAS_N1 | HAS_N2 | HAS_MESSAGE)                \
    service(READ_SAMPLING_MESSAGE, HAS_N1)                                        \
    service(CREATE_QUEUING_PORT, HAS_N1 | HAS_N2 | HAS_N3 | HAS_NAME)             \
    service(SEND_QUEUING_MESSAGE, HAS_N1 | HAS_N2 | HAS_N3 | HAS_MESSAGE)         \
    service(RECEIVE_QUEUING_MESSAGE, HAS_N1 | HAS_N2)                             \
    service(GET_BUFFER_ID, HAS_NAME)                                              \
    service(GET_BUFFER_STATUS, HAS_N1)                                            \
    service(GET_BLACKBOARD_ID, HAS_NAME)                                          \
    service(GET_BLACKBOARD_STATUS, HAS_N1)                                        \
    service(GET_SEMAPHORE_ID, HAS_NAME)                                           \
    service(GET_SEMAPHORE_STATUS, HAS_N1)                                         \
    service(GET_EVENT_ID, HAS_NAME)                                               \
    service(GET_EVENT_STATUS, HAS_N1)                                             \
    service(GET_MUTEX_ID, HAS_NAME)                                               \
    service(GET_MUTEX_STATUS, HAS_N1)                                             \
    service(GET_SAMPLING_PORT_ID, HAS_NAME)                                       \
    service(GET_SAMPLING_PORT_STATUS, HAS_N1)                                     \
    service(GET_QUEUING_PORT_ID, HAS_NAME)                                        \
    service(GET_QUEUING_PORT_STATUS, HAS_N1)                                      \
    service(GET_PARTITION_STATUS, 0)                                              \
    service(GET_PROCESS_ID, HAS_NAME)                                             \
    service(GET_PROCESS_STATUS, HAS_N1)                                           \
    service(DELAYED_START, HAS_N1 | HAS_N2)                                       \
    service(CLEAR_QUEUING_PORT, HAS_N1)                                           \
    service(RESET_MUTEX, HAS_N1 | HAS_N2)                                         \
    service(GET_PROCESS_MUTEX_STATE, HAS_N1)                                      \
    service(REPORT_APPLICATION_MESSAGE, HAS_N2 | HAS_MESSAGE)                     \
    service(CREATE_ERROR_HANDLER, 0)                                              \
    service(LOCK_PREEMPTION, 0)                                                   \
    service(UNLOCK_PREEMPTION, 0)                                                 \
    service(REPLENISH, HAS_N1)                                                    \
    service(RAISE_APPLICATION_ERROR, HAS_N1 | HAS_N2 | HAS_MESSAGE)               \
    service(GET_ERROR_STATUS, 0)                                                  \
    service(CONFIGURE_ERROR_HANDLER, HAS_N1 | HAS_N2)

/* REC_CREATE_PROCESS, and so on. */
enum rec_service {
#define REC_NUMBER(name, takes) REC_##name,
    REC_EACH_SERVICE(REC_NUMBER)
#undef REC_NUMBER
    REC_SERVICES /* how many there are */
};

/* What a call gives its caller: a return code, REC_WAIT if the caller waits, REC_NONE if the call does not return. */
enum rec_outcome {
    REC_NO_ERROR,
    REC_NO_ACTION,
    REC_NOT_AVAILABLE,
    REC_INVALID_PARAM,
    REC_INVALID_CONFIG,
    REC_INVALID_MODE,
    REC_TIMED_OUT,
    REC_WAIT,
    REC_NONE,
    REC_OUTCOMES /* how many there are */
};

/* A process, by its partition and its number there. Number 0 is the initialising process. */
struct rec_process {
    uint8_t partition;
    uint32_t number;
};

/* A call of a service, at the moment at which it takes effect. What a service does not have may stay zero. */
struct rec_call {
    struct rec_process caller;
    enum rec_service service;
    int64_t n1, n2, n3;    /* the service's numbers, as the caller gave them */
    const char *name;      /* of a creation and of a service that looks up a name */
    size_t name_length;
    const uint8_t *message; /* of a service that takes one: n2 bytes, if n2 is from 1 to REC_MESSAGE_BYTES */
    uint8_t priority;      /* the caller's current priority before the call */
    enum rec_outcome outcome;
    size_t value_count; /* how many values the call returns: 0 to 3 */
    int64_t values[3];
    const uint8_t *data; /* the message that the call returns; it returns none if data_length is 0 */
    size_t data_length;
    bool has_channel;
    uint8_t channel;                 /* the port's channel, if has_channel is set */
    const struct rec_process *woken; /* the processes whose waits the call ends, in any order */
    size_t woken_count;
};

/* The return of a call to its caller. */
struct rec_return {
    struct rec_process caller;
    enum rec_service service;
    enum rec_outcome code;
    size_t value_count;
    int64_t values[3];
    const uint8_t *data;
    size_t data_length;
};

/* A message that passes an end of a channel outside the module. */
struct rec_crossing {
    uint8_t channel;
    const uint8_t *message; /* 1 to REC_MESSAGE_BYTES bytes */
    size_t message_length;
    const struct rec_process *woken; /* the processes whose waits end, in any order */
    size_t woken_count;
};

/* The errors, by their numbers. A record reports any but REC_APPLICATION_ERROR, which a process raises by a call. */
enum rec_error_code {
    REC_DEADLINE_MISSED,
    REC_APPLICATION_ERROR,
    REC_NUMERIC_ERROR,
    REC_ILLEGAL_REQUEST,
    REC_STACK_OVERFLOW,
    REC_MEMORY_VIOLATION,
    REC_HARDWARE_FAULT,
    REC_POWER_FAIL,
    REC_ERRORS /* how many there are */
};

/* A recorder of one core. It is in the memory that its opener gave. */
struct recorder;

/*
 * Opens a recorder for a core, 0 to 15, in memory that belongs to it from here on. Its ring takes the greatest power of two of
 * bytes that fits beside less than 512 bytes of its own.
 *
 * NULL if the core is not one, the format is not one, or the memory is too small for a ring of 1,024 bytes.
 */
struct recorder *rec_open(void *memory, size_t size, unsigned core, enum rec_format format);

/* The core's occupant from here on. NULL if the core is idle. */
void rec_disp(struct recorder *recorder, const struct rec_process *occupant);

/* One tick of the core's time, with the processes whose waits end at it, in any order. */
void rec_tick(struct recorder *recorder, const struct rec_process *woken, size_t woken_count);

/* A call of a service. What its pointers lead to is copied. */
void rec_call(struct recorder *recorder, const struct rec_call *call);

/* The return of a call. */
void rec_ret(struct recorder *recorder, const struct rec_return *ret);

/* A message that arrives from outside at a channel, and one that departs from a channel to the outside. Only format 3 has their rows. */
void rec_arrive(struct recorder *recorder, const struct rec_crossing *crossing);
void rec_depart(struct recorder *recorder, const struct rec_crossing *crossing);

/* An error of a process, when it is detected, and whether it restarts the partition. Only format 3 has its row. */
void rec_error(struct recorder *recorder, struct rec_process process, enum rec_error_code error, bool restarts);

/* Takes all of a text, or answers false. */
typedef bool rec_sink(void *to, const char *text, size_t length);

/*
 * Writes the rows of the records that are in the ring, at most `most` of them, oldest first. A row has several calls of the sink,
 * each with at most 256 bytes, and the last one ends with its line feed.
 *
 * Returns the number of rows that were written whole. If the sink answers false, the drain stops and the record stays in the ring.
 * A sink that has taken a part of its row has cut the text there, and apexcheck refuses what a later drain appends to it.
 */
size_t rec_drain(struct recorder *recorder, size_t most, rec_sink *sink, void *to);

/* How many records were lost so far, because the ring was full or because they exceed a limit. Any thread may ask. */
size_t rec_lost(const struct recorder *recorder);

/* The core that the recorder was opened for. */
unsigned rec_core(const struct recorder *recorder);

#endif

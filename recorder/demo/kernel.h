/*
 * The kernel of the demo: what its files know of each other.
 *
 * One lock guards all of it. A core is a thread. It runs its processes one at a time, and leaves them in the kernel only: in a service,
 * or in `compute`, where it takes the interrupts of its timer. So a core has masked its interrupts wherever it holds the lock, and each
 * recorder is called by its own core alone.
 */
#ifndef KERNEL_H
#define KERNEL_H

#include <pthread.h>
#include <stdio.h>

#include "../recorder.h"
#include "context.h"
#include "module.h"

#define MOST_PROCESSES 8
#define MOST_OBJECTS 4
#define MOST_CHANNELS 16
#define MOST_MESSAGES 4
#define MESSAGE_BYTES 32
#define MOST_WOKEN 64
#define PRIORITIES 240

struct core;
struct partition;
struct mutex;

/* The faults that can be built in, in partition 0 or its core alone. */
enum fault {
    NO_FAULT,
    LOST_WAKE_UP,       /* a semaphore that is signalled does not look whether somebody waits */
    LAST_IN_FIRST_OUT,  /* a waiting queue that should be FIFO puts whoever comes at its front */
    PRIORITY_KEPT,      /* a process that releases a mutex keeps the mutex's priority */
    STALE_CALLED_VALID, /* a message that is too old is called valid */
    WRONG_AT_TIE,       /* of processes that become ready together, the last goes first */
    LOST_TICK           /* the handler of the timer misses an interrupt, and the next one counts for two */
};

struct message {
    size_t length;
    uint8_t bytes[MESSAGE_BYTES];
};

/* Processes that wait for one thing, in the order in which they go on. */
struct waiting_queue {
    enum discipline discipline;
    struct process *first;
};

enum process_state { DORMANT, READY, WAITING };

/* What a call returns to its caller. */
struct result {
    enum return_code code;
    size_t value_count;
    int64_t values[3];
    struct message data;
};

struct process {
    uint32_t number;
    char name[REC_NAME_BYTES + 1];
    void (*entry)(void);
    struct partition *partition;
    struct core *core;
    struct context context;
    int64_t base_priority, priority, retained_priority;
    int64_t period, last_release;
    enum process_state state;
    bool is_suspended;
    bool must_begin; /* its context is to run from its start */
    /* In a run queue. */
    uint64_t arrival;
    struct process *next_ready;
    /* While it waits: where, with which priority and message, and until when. */
    enum rec_service waits_in;
    bool waits_for_normal, waits_for_release;
    struct waiting_queue *queue;
    struct process *next_waiting;
    int64_t waiting_priority;
    struct message sent;
    bool has_due_time;
    int64_t due_time;
    struct process *next_due;
    struct result result;
    struct mutex *owned;
    int64_t work; /* the ticks for which it still computes */
};

struct message_queue {
    int64_t size, capacity;
    size_t oldest, count;
    struct message messages[MOST_MESSAGES];
    struct waiting_queue senders, receivers;
};

struct buffer {
    const char *name;
    struct message_queue queue;
};

struct blackboard {
    const char *name;
    int64_t size;
    bool is_occupied;
    struct message message;
    struct waiting_queue readers;
};

struct semaphore {
    const char *name;
    int64_t value, maximum;
    struct waiting_queue waiters;
};

struct event {
    const char *name;
    bool is_up;
    struct waiting_queue waiters;
};

struct mutex {
    const char *name;
    int64_t priority;
    struct process *owner;
    int64_t count;
    struct waiting_queue waiters;
};

struct channel {
    const struct channel_setup *setup;
    uint8_t number;
    struct message_queue queue; /* of a queuing channel */
    bool is_written;            /* of a sampling channel */
    int64_t written_at;
    struct message sample;
};

struct port {
    const char *name;
    struct channel *channel;
    enum direction direction;
    bool was_valid; /* of a sampling port: the validity of its last read */
};

struct partition {
    uint8_t number;
    const struct partition_setup *setup;
    enum mode mode;
    struct process processes[MOST_PROCESSES + 1]; /* number 0 is the initialising process */
    struct buffer buffers[MOST_OBJECTS];
    struct blackboard blackboards[MOST_OBJECTS];
    struct semaphore semaphores[MOST_OBJECTS];
    struct event events[MOST_OBJECTS];
    struct mutex mutexes[MOST_OBJECTS];
    struct port sampling_ports[MOST_OBJECTS], queuing_ports[MOST_OBJECTS];
    unsigned process_count, buffer_count, blackboard_count, semaphore_count, event_count, mutex_count, sampling_port_count,
        queuing_port_count;
};

/* The ready processes of one partition on one core: a list for each priority, by arrival. A process that runs stays in its list. */
struct run_queue {
    struct process *first[PRIORITIES];
};

struct core {
    unsigned number;
    int64_t time;
    struct recorder *recorder;
    unsigned long records;
    pthread_t thread;
    pthread_cond_t interrupt;
    bool is_at_rest;             /* it waits for an interrupt */
    bool has_tick;               /* the interrupt of its timer is pending */
    bool has_lost_tick;
    struct process *occupant;    /* NULL if it is idle */
    struct context idle;
    struct context *runs;        /* the context that the thread is in */
    struct process *time_outs;   /* by due time */
    struct run_queue ready[MOST_PARTITIONS];
};

struct kernel {
    pthread_mutex_t lock;
    pthread_cond_t rests; /* a core has come to rest */
    const struct module *module;
    enum fault fault;
    bool has_statuses;
    FILE *order; /* the order of the records, or NULL */
    bool is_over;
    uint64_t arrivals;
    struct core cores[MOST_CORES];
    struct partition partitions[MOST_PARTITIONS];
    struct channel channels[MOST_CHANNELS];
};

extern struct kernel kernel;

/* kernel.c: cores, dispatching and ticks. */

/* Makes the module ready to run, with a recorder for each core. The order of the records is written to `order`, unless it is NULL. */
void kernel_start(const struct module *module, enum fault fault, bool has_statuses, struct recorder *const *recorders, FILE *order);

/* Runs the module until each core has had so many ticks. Which core ticks next, within the skew, follows from the seed. */
void kernel_run(int64_t ticks, uint32_t seed);

void kernel_lock(void);
void kernel_unlock(void);

/* The core whose thread this is. */
struct core *this_core(void);

/* Another core looks at what has changed for it. */
void interrupt(struct core *core);

/* Notes that a core has just recorded something: all cores record under the one lock, so this is the order in which it happened. */
void note_order(struct core *core);

/* Whether a fault is built into this partition. */
bool is_faulty(const struct partition *partition, enum fault fault);

/* Takes what is pending on the core: it dispatches the process that should run and handles the tick that has come. */
void settle(struct core *core);

/* ready.c: run queues, waiting queues and time-outs. */

/* The ready process that goes first, or NULL. */
struct process *first_ready(const struct run_queue *queue);

/* A process that waited, or was dormant, waits for nothing from here on. It is ready unless it is suspended. */
void make_ready(struct process *process);

/* The same for several at once: among equals, the one with the smaller number goes first. */
void make_all_ready(struct process **processes, size_t count);

/* Takes a ready process out of its run queue, and puts one back in its place there. */
void leave_run_queue(struct process *process);
void return_to_run_queue(struct process *process);

/* A ready process goes behind the others of its priority. */
void go_behind(struct process *process);

void set_priority(struct process *process, int64_t priority);

/* A process is ready if it is alive, waits for nothing and is not suspended. */
bool is_ready(const struct process *process);

void enter_waiting_queue(struct waiting_queue *queue, struct process *process);
void enter_time_outs(struct process *process, int64_t due_time);

/* Ends the wait of a process: it leaves its waiting queue and the time-outs. */
void end_wait(struct process *process);

/* The processes of a core that are due at its time, with their waits ended: at most MOST_WOKEN. */
size_t take_due(struct core *core, struct process **due);

/* service.c: the way of a call through the kernel. */

/* A call of a service. */
struct call {
    struct core *core;
    struct process *caller;
    struct partition *partition;
    struct rec_call record;
    struct rec_process woken[MOST_WOKEN];
};

/* A process enters the kernel with a service and its numbers. The lock is held from here on. */
void begin_call(struct call *call, enum rec_service service, int64_t n1, int64_t n2, int64_t n3);

/* The call takes effect with this code, and returns it. The lock is released. */
enum return_code answer(struct call *call, enum return_code code);

/* The same with NO_ERROR and a value, or with a message. */
enum return_code answer_value(struct call *call, int64_t value);
enum return_code answer_message(struct call *call, const struct message *message);

/* The call has to wait in a queue, or is refused if its time-out is 0. */
enum return_code wait_in(struct call *call, struct waiting_queue *queue, int64_t time_out);

/* The caller waits until a time of its core, or without one for ever. */
enum return_code wait_until(struct call *call, bool has_due_time, int64_t due_time);

/* The call does not return: its caller is dormant. */
void leave_for_ever(struct call *call);

/* The call ends the wait of a process, with a message for it or NULL. */
void wake(struct call *call, struct process *process, const struct message *message);

/* The call ends the waits of all processes of a queue. */
void wake_all(struct call *call, struct waiting_queue *queue, const struct message *message);

/* What the call returned, to its caller. */
void take_message(const struct process *caller, void *message, size_t *length);

/* A process that may not wait with this time-out: the initialising process, or the owner of a mutex. */
bool may_not_wait(const struct call *call, int64_t time_out);

/* messages.c: queues of messages, for buffers and for queuing ports. */
enum return_code send(struct call *call, struct message_queue *queue, const void *message, int64_t length, int64_t time_out);
enum return_code receive(struct call *call, struct message_queue *queue, int64_t time_out);
int64_t waiting_count(const struct waiting_queue *queue);

/* The object of a number, or NULL. */
#define OBJECT_OF(objects, count, number) ((number) >= 1 && (number) <= (int64_t)(count) ? &(objects)[(number) - 1] : NULL)

#endif

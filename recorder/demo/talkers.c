/*
 * Eight partitions on four cores. Each sends to the next one through a queuing channel, and the last one to the first. Those with even
 * numbers also write news to sampling ports, which two of the others read. Within a partition the messages pass through a buffer to two
 * workers, who take turns with a mutex, and then by a semaphore, a blackboard and an event. Partition 6 runs on two cores, and
 * partitions 3 and 5 restart once.
 */
#include "module.h"

#define PARTITIONS 8
#define MESSAGE 6
#define NEWS 3
#define FRAME 20

/* What each partition knows. Only its own processes use it. */
static struct talker {
    int64_t out, in, news_out, news_one, news_other;
    int64_t buffer, semaphore, event, mutex, blackboard;
    int64_t clerk, reader, helper;
    unsigned starts;
} talkers[PARTITIONS];

static struct talker *this_talker(void)
{
    return &talkers[partition_number()];
}

static void talk(void)
{
    struct talker *self = this_talker();
    unsigned number = partition_number();
    uint8_t message[MESSAGE] = {(uint8_t)number};
    uint32_t count;

    for (count = 1;; count++) {
        message[1] = (uint8_t)(count >> 8);
        message[2] = (uint8_t)count;
        SEND_QUEUING_MESSAGE(self->out, message, 3 + (int64_t)(count % 4), number % 3 == 0 ? FOR_EVER : 6);
        TIMED_WAIT(1 + (int64_t)(count % 3));
    }
}

/* A message that nobody takes out of the buffer in time is dropped. */
static void listen(void)
{
    struct talker *self = this_talker();
    uint8_t message[MESSAGE];
    size_t length;

    for (;;) {
        if (RECEIVE_QUEUING_MESSAGE(self->in, 15, message, &length) == NO_ERROR)
            SEND_BUFFER(self->buffer, message, (int64_t)length, 3);
    }
}

static void work(void)
{
    struct talker *self = this_talker();
    uint8_t message[MESSAGE];
    struct buffer_status status;
    size_t length;

    for (;;) {
        RECEIVE_BUFFER(self->buffer, FOR_EVER, message, &length);
        if (has_statuses())
            GET_BUFFER_STATUS(self->buffer, &status);
        if (ACQUIRE_MUTEX(self->mutex, 10) == NO_ERROR) {
            compute(1);
            ACQUIRE_MUTEX(self->mutex, 0);
            TIMED_WAIT(1); /* the owner of a mutex may not wait: the call is refused */
            RELEASE_MUTEX(self->mutex);
            compute(1);
            RELEASE_MUTEX(self->mutex);
        }
        DISPLAY_BLACKBOARD(self->blackboard, message, (int64_t)length);
        SIGNAL_SEMAPHORE(self->semaphore);
    }
}

static void tell_news(struct talker *self)
{
    uint8_t news[NEWS];
    size_t length;
    bool is_valid;
    int64_t time;

    if (self->news_out != 0) {
        GET_TIME(&time);
        news[0] = (uint8_t)partition_number();
        news[1] = (uint8_t)(time >> 8);
        news[2] = (uint8_t)time;
        WRITE_SAMPLING_MESSAGE(self->news_out, news, NEWS);
    }
    if (self->news_one != 0) {
        READ_SAMPLING_MESSAGE(self->news_one, news, &length, &is_valid);
        READ_SAMPLING_MESSAGE(self->news_other, news, &length, &is_valid);
    }
}

static void keep_books(void)
{
    struct talker *self = this_talker();
    struct buffer_status status;
    int64_t found;

    for (;;) {
        WAIT_SEMAPHORE(self->semaphore, 9);
        SET_EVENT(self->event);
        RESET_EVENT(self->event);
        if (has_statuses()) {
            GET_SEMAPHORE_ID("DONE", &found);
            GET_QUEUING_PORT_ID("NOWHERE", &found);
            GET_QUEUING_PORT_STATUS(self->out, &status);
        }
    }
}

static void read_board(void)
{
    struct talker *self = this_talker();
    uint8_t message[MESSAGE];
    size_t length;

    for (;;) {
        if (WAIT_EVENT(self->event, 30) == NO_ERROR) {
            READ_BLACKBOARD(self->blackboard, 0, message, &length);
            CLEAR_BLACKBOARD(self->blackboard);
        }
        tell_news(self);
        READ_BLACKBOARD(self->blackboard, 4, message, &length);
    }
}

/* Runs once each time it is started. */
static void help(void)
{
    compute(2);
    SUSPEND_SELF(3);
    compute(1);
}

/* Partitions 3 and 5 restart once. */
static void restart_once(const struct talker *self)
{
    if (partition_number() == 3 && self->starts == 1)
        SET_PARTITION_MODE(MODE_COLD_START);
    if (partition_number() == 5 && self->starts == 1)
        SET_PARTITION_MODE(MODE_WARM_START);
}

/* Manages the other processes, and makes calls that are refused. */
static void manage(void)
{
    struct talker *self = this_talker();
    uint8_t nothing[1] = {0};
    int64_t count;

    for (count = 0;; count++) {
        SET_PRIORITY(self->clerk, 10 + count % 5);
        if (count % 2 == 0)
            SUSPEND(self->reader);
        else
            RESUME(self->reader);
        RESUME(self->helper);
        if (count % 3 == 2)
            STOP(self->helper);
        START(self->helper);
        SEND_BUFFER(99, nothing, 1, 0);
        SEND_QUEUING_MESSAGE(self->in, nothing, 1, 0);
        TIMED_WAIT(0);
        if (count == 4)
            restart_once(self);
        PERIODIC_WAIT();
    }
}

static int64_t create(const char *name, void (*entry)(void), int64_t priority, int64_t period)
{
    int64_t process = 0;

    CREATE_PROCESS(name, entry, priority, period, &process);
    return process;
}

static void create_processes(struct talker *self, bool is_on_two_cores)
{
    int64_t worker;

    START(create("TALKER", talk, 20, APERIODIC));
    START(create("LISTENER", listen, 25, APERIODIC));
    START(create("WORKER A", work, 15, APERIODIC));
    worker = create("WORKER B", work, 15, APERIODIC);
    if (is_on_two_cores)
        INITIALIZE_PROCESS_CORE_AFFINITY(worker, 3);
    START(worker);
    self->clerk = create("CLERK", keep_books, 10, APERIODIC);
    START(self->clerk);
    self->reader = create("READER", read_board, 12, APERIODIC);
    START(self->reader);
    START(create("MANAGER", manage, 30, FRAME));
    self->helper = create("HELPER", help, 5, APERIODIC);
}

static void initialise(void)
{
    struct talker *self = this_talker();
    unsigned number = partition_number();
    enum discipline discipline = number % 2 == 0 ? FIFO : PRIORITY;

    self->starts++;
    CREATE_QUEUING_PORT("OUT", MESSAGE, 1 + number % 3, SOURCE, FIFO, &self->out);
    CREATE_QUEUING_PORT("IN", MESSAGE, 1 + (number + PARTITIONS - 1) % PARTITIONS % 3, DESTINATION, PRIORITY, &self->in);
    if (number % 2 == 0) {
        CREATE_SAMPLING_PORT("NEWS", NEWS, SOURCE, 8, &self->news_out);
    } else {
        CREATE_SAMPLING_PORT("NEWS A", NEWS, DESTINATION, 8, &self->news_one);
        CREATE_SAMPLING_PORT("NEWS B", NEWS, DESTINATION, 8, &self->news_other);
    }
    CREATE_BUFFER("WORK", MESSAGE, 2, discipline, &self->buffer);
    CREATE_SEMAPHORE("DONE", 1, 2, discipline, &self->semaphore);
    CREATE_EVENT("CHANGED", &self->event);
    CREATE_MUTEX("TOOL", 20, discipline, &self->mutex);
    CREATE_BLACKBOARD("BOARD", MESSAGE, &self->blackboard);
    create_processes(self, number == 6);
    SET_PARTITION_MODE(MODE_NORMAL);
}

/* The module. */

#define ON(core)                                                                                                                      \
    {                                                                                                                                 \
        .period = FRAME, .cores = {core}, .core_count = 1, .initialise = initialise                                                   \
    }

static const struct partition_setup partitions[PARTITIONS] = {
    ON(0), ON(0), ON(1), ON(1), ON(2), ON(2), {.period = FRAME, .cores = {2, 3}, .core_count = 2, .initialise = initialise}, ON(3),
};

static const struct window windows[] = {
    {.core = 0, .partition = 0, .start = 0, .length = 10}, {.core = 0, .partition = 1, .start = 10, .length = 10},
    {.core = 1, .partition = 2, .start = 0, .length = 12}, {.core = 1, .partition = 3, .start = 12, .length = 8},
    {.core = 2, .partition = 4, .start = 0, .length = 7},  {.core = 2, .partition = 5, .start = 7, .length = 7},
    {.core = 2, .partition = 6, .start = 14, .length = 6}, {.core = 3, .partition = 6, .start = 0, .length = 9},
    {.core = 3, .partition = 7, .start = 10, .length = 10},
};

/* The queuing channel of a partition has its number; it leads to the next partition. */
#define TO(number, next)                                                                                                              \
    {                                                                                                                                 \
        .is_queuing = true, .size = MESSAGE, .capacity = 1 + (number) % 3, .source = {number, "OUT", FIFO},                           \
        .destinations = {{next, "IN", PRIORITY}}, .destination_count = 1                                                              \
    }

/* News go to two partitions. */
#define NEWS_OF(number, one, other)                                                                                                   \
    {                                                                                                                                 \
        .size = NEWS, .refresh = 8, .source = {number, "NEWS", FIFO}, .destinations = {{one, "NEWS A", FIFO}, {other, "NEWS B", FIFO}}, \
        .destination_count = 2                                                                                                        \
    }

static const struct channel_setup channels[] = {
    TO(0, 1), TO(1, 2), TO(2, 3), TO(3, 4), TO(4, 5), TO(5, 6), TO(6, 7), TO(7, 0),
    NEWS_OF(0, 1, 3), NEWS_OF(2, 3, 5), NEWS_OF(4, 5, 7), NEWS_OF(6, 7, 1),
};

const struct module talkers_module = {
    .core_count = 4,
    .partition_count = PARTITIONS,
    .window_count = sizeof windows / sizeof windows[0],
    .channel_count = sizeof channels / sizeof channels[0],
    .frame = FRAME,
    .skew = 3,
    .partitions = partitions,
    .windows = windows,
    .channels = channels,
};

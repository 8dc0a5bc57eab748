/*
 * Tests of the ring and of the rows. Each expected row is written by hand from docs/FORMATS.md.
 *
 * It prints one line for each case, and then `N passed, M failed`.
 */
#define _XOPEN_SOURCE 700
#include <pthread.h>
#include <stdio.h>
#include <stdlib.h>
#include <string.h>
#include <time.h>

#include "followed.h"
#include "recorder.h"

#define RING (1 << 16)

static int passed, failed;

/* What was drained. */
struct drained {
    char text[1 << 17];
    size_t length;
    size_t room; /* the sink refuses what does not fit */
};

static struct drained drained;

static void count(const char *name, bool is_right)
{
    if (is_right) {
        passed++;
        printf("ok: %s\n", name);
    } else {
        failed++;
        printf("FAILED: %s\n", name);
    }
}

static bool keep(void *to, const char *text, size_t length)
{
    struct drained *kept = to;

    if (length > kept->room - kept->length)
        return false;
    memcpy(kept->text + kept->length, text, length);
    kept->length += length;
    kept->text[kept->length] = '\0';
    return true;
}

static struct recorder *open_ring(size_t size, enum rec_format format)
{
    static uint64_t memory[RING / sizeof(uint64_t) + 64];
    struct recorder *recorder = rec_open(memory, size, 3, format);

    drained.length = 0;
    drained.text[0] = '\0';
    drained.room = sizeof drained.text - 1;
    if (recorder == NULL)
        exit(2);
    return recorder;
}

/* Drains all, and compares the text that was drained so far. */
static void expect(const char *name, struct recorder *recorder, const char *text)
{
    bool is_right;

    rec_drain(recorder, SIZE_MAX, keep, &drained);
    is_right = strcmp(drained.text, text) == 0;
    count(name, is_right);
    if (!is_right)
        printf("  expected: %s\n  drained:  %s\n", text, drained.text);
}

/* The kinds of records, in both formats. */

static void record_kinds(struct recorder *recorder)
{
    static const struct rec_process initialising = {7, 0}, one = {0, 2147483647};
    static const struct rec_process woken[] = {{12, 1}, {3, 20}, {3, 3}, {0, 9}};

    rec_disp(recorder, &initialising);
    rec_disp(recorder, NULL);
    rec_tick(recorder, NULL, 0);
    rec_tick(recorder, &one, 1);
    rec_tick(recorder, woken, 4);
    rec_call(recorder, &(struct rec_call){.caller = {4, 1},
                                          .service = REC_RECEIVE_QUEUING_MESSAGE,
                                          .n1 = 2,
                                          .n2 = -1,
                                          .priority = 239,
                                          .outcome = REC_NO_ERROR,
                                          .data = (const uint8_t *)"\x00\x0f\xa0\xff\x41\x42\x43\x44\x45",
                                          .data_length = 9,
                                          .has_channel = true,
                                          .channel = 255,
                                          .woken = woken,
                                          .woken_count = 3});
    rec_ret(recorder, &(struct rec_return){.caller = {4, 1},
                                           .service = REC_RECEIVE_QUEUING_MESSAGE,
                                           .code = REC_NO_ERROR,
                                           .data = (const uint8_t *)"\xca\xfe",
                                           .data_length = 2});
    rec_call(recorder, &(struct rec_call){.caller = {0, 5},
                                          .service = REC_GET_MUTEX_STATUS,
                                          .n1 = 1,
                                          .priority = 40,
                                          .outcome = REC_NO_ERROR,
                                          .value_count = 3,
                                          .values = {5, 0, 1}});
    rec_ret(recorder, &(struct rec_return){.caller = {0, 5},
                                           .service = REC_GET_BUFFER_STATUS,
                                           .code = REC_NO_ERROR,
                                           .value_count = 2,
                                           .values = {INT64_MIN, INT64_MAX}});
}

static void kinds(void)
{
    struct recorder *recorder = open_ring(RING, REC_FORMAT_1);

    record_kinds(recorder);
    expect("the kinds of format 1", recorder,
           "0,disp,7,0,,,,,,,,,,,,\n"
           "1,disp,,,,,,,,,,,,,,\n"
           "2,tick,,,,,,,,,,,,,,\n"
           "3,tick,,,,,,,,,,,,,,0:2147483647\n"
           "4,tick,,,,,,,,,,,,,,0:9;3:3;3:20;12:1\n"
           "5,call,4,1,RECEIVE_QUEUING_MESSAGE,2,-1,,,,239,NO_ERROR,,000fa0ff4142434445,255,3:3;3:20;12:1\n"
           "6,ret,4,1,RECEIVE_QUEUING_MESSAGE,,,,,,,NO_ERROR,,cafe,,\n"
           "7,call,0,5,GET_MUTEX_STATUS,1,,,,,40,NO_ERROR,5,,,\n"
           "8,ret,0,5,GET_BUFFER_STATUS,,,,,,,NO_ERROR,-9223372036854775808,,,\n");
    recorder = open_ring(RING, REC_FORMAT_2);
    record_kinds(recorder);
    expect("the kinds of format 2", recorder,
           "0,disp,7,0,,,,,,,,,,,,,,\n"
           "1,disp,,,,,,,,,,,,,,,,\n"
           "2,tick,,,,,,,,,,,,,,,,\n"
           "3,tick,,,,,,,,,,,,,,0:2147483647,,\n"
           "4,tick,,,,,,,,,,,,,,0:9;3:3;3:20;12:1,,\n"
           "5,call,4,1,RECEIVE_QUEUING_MESSAGE,2,-1,,,,239,NO_ERROR,,000fa0ff4142434445,255,3:3;3:20;12:1,,\n"
           "6,ret,4,1,RECEIVE_QUEUING_MESSAGE,,,,,,,NO_ERROR,,cafe,,,,\n"
           "7,call,0,5,GET_MUTEX_STATUS,1,,,,,40,NO_ERROR,5,,,,0,1\n"
           "8,ret,0,5,GET_BUFFER_STATUS,,,,,,,NO_ERROR,-9223372036854775808,,,,9223372036854775807,\n");
}

/* Every service, called with all that a call can have: the row has what the service takes. */

static const struct {
    enum rec_service service;
    const char *fields; /* from `service` to `msg` */
} TAKEN[] = {
    {REC_CREATE_PROCESS, "CREATE_PROCESS,1,2,3,N,"},
    {REC_INITIALIZE_PROCESS_CORE_AFFINITY, "INITIALIZE_PROCESS_CORE_AFFINITY,1,2,,,"},
    {REC_START, "START,1,,,,"},
    {REC_STOP, "STOP,1,,,,"},
    {REC_STOP_SELF, "STOP_SELF,,,,,"},
    {REC_SUSPEND, "SUSPEND,1,,,,"},
    {REC_SUSPEND_SELF, "SUSPEND_SELF,1,,,,"},
    {REC_RESUME, "RESUME,1,,,,"},
    {REC_SET_PRIORITY, "SET_PRIORITY,1,2,,,"},
    {REC_GET_MY_ID, "GET_MY_ID,,,,,"},
    {REC_TIMED_WAIT, "TIMED_WAIT,1,,,,"},
    {REC_PERIODIC_WAIT, "PERIODIC_WAIT,,,,,"},
    {REC_GET_TIME, "GET_TIME,,,,,"},
    {REC_SET_PARTITION_MODE, "SET_PARTITION_MODE,1,,,,"},
    {REC_CREATE_BUFFER, "CREATE_BUFFER,1,2,3,N,"},
    {REC_SEND_BUFFER, "SEND_BUFFER,1,2,3,,6d65"},
    {REC_RECEIVE_BUFFER, "RECEIVE_BUFFER,1,2,,,"},
    {REC_CREATE_BLACKBOARD, "CREATE_BLACKBOARD,1,,,N,"},
    {REC_DISPLAY_BLACKBOARD, "DISPLAY_BLACKBOARD,1,2,,,6d65"},
    {REC_READ_BLACKBOARD, "READ_BLACKBOARD,1,2,,,"},
    {REC_CLEAR_BLACKBOARD, "CLEAR_BLACKBOARD,1,,,,"},
    {REC_CREATE_SEMAPHORE, "CREATE_SEMAPHORE,1,2,3,N,"},
    {REC_WAIT_SEMAPHORE, "WAIT_SEMAPHORE,1,2,,,"},
    {REC_SIGNAL_SEMAPHORE, "SIGNAL_SEMAPHORE,1,,,,"},
    {REC_CREATE_EVENT, "CREATE_EVENT,,,,N,"},
    {REC_SET_EVENT, "SET_EVENT,1,,,,"},
    {REC_RESET_EVENT, "RESET_EVENT,1,,,,"},
    {REC_WAIT_EVENT, "WAIT_EVENT,1,2,,,"},
    {REC_CREATE_MUTEX, "CREATE_MUTEX,1,2,,N,"},
    {REC_ACQUIRE_MUTEX, "ACQUIRE_MUTEX,1,2,,,"},
    {REC_RELEASE_MUTEX, "RELEASE_MUTEX,1,,,,"},
    {REC_CREATE_SAMPLING_PORT, "CREATE_SAMPLING_PORT,1,2,3,N,"},
    {REC_WRITE_SAMPLING_MESSAGE, "WRITE_SAMPLING_MESSAGE,1,2,,,6d65"},
    {REC_READ_SAMPLING_MESSAGE, "READ_SAMPLING_MESSAGE,1,,,,"},
    {REC_CREATE_QUEUING_PORT, "CREATE_QUEUING_PORT,1,2,3,N,"},
    {REC_SEND_QUEUING_MESSAGE, "SEND_QUEUING_MESSAGE,1,2,3,,6d65"},
    {REC_RECEIVE_QUEUING_MESSAGE, "RECEIVE_QUEUING_MESSAGE,1,2,,,"},
    {REC_GET_BUFFER_ID, "GET_BUFFER_ID,,,,N,"},
    {REC_GET_BUFFER_STATUS, "GET_BUFFER_STATUS,1,,,,"},
    {REC_GET_BLACKBOARD_ID, "GET_BLACKBOARD_ID,,,,N,"},
    {REC_GET_BLACKBOARD_STATUS, "GET_BLACKBOARD_STATUS,1,,,,"},
    {REC_GET_SEMAPHORE_ID, "GET_SEMAPHORE_ID,,,,N,"},
    {REC_GET_SEMAPHORE_STATUS, "GET_SEMAPHORE_STATUS,1,,,,"},
    {REC_GET_EVENT_ID, "GET_EVENT_ID,,,,N,"},
    {REC_GET_EVENT_STATUS, "GET_EVENT_STATUS,1,,,,"},
    {REC_GET_MUTEX_ID, "GET_MUTEX_ID,,,,N,"},
    {REC_GET_MUTEX_STATUS, "GET_MUTEX_STATUS,1,,,,"},
    {REC_GET_SAMPLING_PORT_ID, "GET_SAMPLING_PORT_ID,,,,N,"},
    {REC_GET_SAMPLING_PORT_STATUS, "GET_SAMPLING_PORT_STATUS,1,,,,"},
    {REC_GET_QUEUING_PORT_ID, "GET_QUEUING_PORT_ID,,,,N,"},
    {REC_GET_QUEUING_PORT_STATUS, "GET_QUEUING_PORT_STATUS,1,,,,"},
    {REC_GET_PARTITION_STATUS, "GET_PARTITION_STATUS,,,,,"},
    {REC_GET_PROCESS_ID, "GET_PROCESS_ID,,,,N,"},
    {REC_GET_PROCESS_STATUS, "GET_PROCESS_STATUS,1,,,,"},
    {REC_DELAYED_START, "DELAYED_START,1,2,,,"},
    {REC_CLEAR_QUEUING_PORT, "CLEAR_QUEUING_PORT,1,,,,"},
    {REC_RESET_MUTEX, "RESET_MUTEX,1,2,,,"},
    {REC_GET_PROCESS_MUTEX_STATE, "GET_PROCESS_MUTEX_STATE,1,,,,"},
    {REC_REPORT_APPLICATION_MESSAGE, "REPORT_APPLICATION_MESSAGE,,2,,,6d65"},
    {REC_CREATE_ERROR_HANDLER, "CREATE_ERROR_HANDLER,,,,,"},
    {REC_LOCK_PREEMPTION, "LOCK_PREEMPTION,,,,,"},
    {REC_UNLOCK_PREEMPTION, "UNLOCK_PREEMPTION,,,,,"},
    {REC_REPLENISH, "REPLENISH,1,,,,"},
    {REC_RAISE_APPLICATION_ERROR, "RAISE_APPLICATION_ERROR,1,2,,,6d65"},
    {REC_GET_ERROR_STATUS, "GET_ERROR_STATUS,,,,,"},
    {REC_CONFIGURE_ERROR_HANDLER, "CONFIGURE_ERROR_HANDLER,1,2,,,"},
};

static void services(void)
{
    size_t i;

    count("as many services as are tested", sizeof TAKEN / sizeof TAKEN[0] == REC_SERVICES);
    for (i = 0; i < sizeof TAKEN / sizeof TAKEN[0]; i++) {
        struct recorder *recorder = open_ring(RING, REC_FORMAT_3);
        char row[256];
        rec_call(recorder, &(struct rec_call){.caller = {1, 2},
                                              .service = TAKEN[i].service,
                                              .n1 = 1,
                                              .n2 = 2,
                                              .n3 = 3,
                                              .name = "N",
                                              .name_length = 1,
                                              .message = (const uint8_t *)"message",
                                              .priority = 9,
                                              .outcome = REC_INVALID_PARAM});
        snprintf(row, sizeof row, "0,call,1,2,%s,9,INVALID_PARAM,,,,,,,\n", TAKEN[i].fields);
        expect(TAKEN[i].fields, recorder, row);
    }
}

/* What only format 3 has: a time capacity, messages from and to the outside, and errors. */

static void create_process(struct recorder *recorder)
{
    rec_call(recorder, &(struct rec_call){.caller = {1, 0},
                                          .service = REC_CREATE_PROCESS,
                                          .n1 = 5,
                                          .n2 = 20,
                                          .n3 = 10,
                                          .name = "N",
                                          .name_length = 1,
                                          .outcome = REC_NO_ERROR,
                                          .value_count = 1,
                                          .values = {7}});
}

static void later_fields(void)
{
    static const struct rec_process woken[] = {{1, 3}, {0, 2}};
    struct recorder *recorder = open_ring(RING, REC_FORMAT_2);

    create_process(recorder);
    expect("no time capacity in format 2", recorder, "0,call,1,0,CREATE_PROCESS,5,20,,N,,0,NO_ERROR,7,,,,,\n");
    recorder = open_ring(RING, REC_FORMAT_3);
    create_process(recorder);
    rec_arrive(recorder, &(struct rec_crossing){.channel = 4,
                                                .message = (const uint8_t *)"\x0a\xbc",
                                                .message_length = 2,
                                                .woken = woken,
                                                .woken_count = 2});
    rec_depart(recorder, &(struct rec_crossing){.channel = 255, .message = (const uint8_t *)"\xff", .message_length = 1});
    rec_error(recorder, (struct rec_process){31, 6}, REC_DEADLINE_MISSED, false);
    rec_error(recorder, (struct rec_process){0, 0}, REC_POWER_FAIL, true);
    rec_disp(recorder, NULL);
    expect("the records of format 3", recorder,
           "0,call,1,0,CREATE_PROCESS,5,20,10,N,,0,NO_ERROR,7,,,,,,\n"
           "1,arrive,,,,,,,,0abc,,,,,4,0:2;1:3,,,\n"
           "2,depart,,,,,,,,,,,,ff,255,,,,\n"
           "3,err,31,6,,,,,,,,,,,,,,,DEADLINE_MISSED\n"
           "4,err,0,0,,,,,,,,none,,,,,,,POWER_FAIL\n"
           "5,disp,,,,,,,,,,,,,,,,,\n");
}

/* Each error by its name. APPLICATION_ERROR has a row too, which the check refuses. */
static void errors(void)
{
    struct recorder *recorder = open_ring(RING, REC_FORMAT_3);
    int error;

    for (error = REC_DEADLINE_MISSED; error < REC_ERRORS; error++)
        rec_error(recorder, (struct rec_process){0, 1}, (enum rec_error_code)error, error % 2 == 1);
    expect("errors", recorder,
           "0,err,0,1,,,,,,,,,,,,,,,DEADLINE_MISSED\n"
           "1,err,0,1,,,,,,,,none,,,,,,,APPLICATION_ERROR\n"
           "2,err,0,1,,,,,,,,,,,,,,,NUMERIC_ERROR\n"
           "3,err,0,1,,,,,,,,none,,,,,,,ILLEGAL_REQUEST\n"
           "4,err,0,1,,,,,,,,,,,,,,,STACK_OVERFLOW\n"
           "5,err,0,1,,,,,,,,none,,,,,,,MEMORY_VIOLATION\n"
           "6,err,0,1,,,,,,,,,,,,,,,HARDWARE_FAULT\n"
           "7,err,0,1,,,,,,,,none,,,,,,,POWER_FAIL\n");
}

/* Fields at their edges. */

static void outcomes(void)
{
    struct recorder *recorder = open_ring(RING, REC_FORMAT_1);
    int outcome;

    for (outcome = REC_NO_ERROR; outcome < REC_OUTCOMES; outcome++)
        rec_call(recorder, &(struct rec_call){.service = REC_STOP_SELF, .outcome = (enum rec_outcome)outcome});
    expect("outcomes", recorder,
           "0,call,0,0,STOP_SELF,,,,,,0,NO_ERROR,,,,\n"
           "1,call,0,0,STOP_SELF,,,,,,0,NO_ACTION,,,,\n"
           "2,call,0,0,STOP_SELF,,,,,,0,NOT_AVAILABLE,,,,\n"
           "3,call,0,0,STOP_SELF,,,,,,0,INVALID_PARAM,,,,\n"
           "4,call,0,0,STOP_SELF,,,,,,0,INVALID_CONFIG,,,,\n"
           "5,call,0,0,STOP_SELF,,,,,,0,INVALID_MODE,,,,\n"
           "6,call,0,0,STOP_SELF,,,,,,0,TIMED_OUT,,,,\n"
           "7,call,0,0,STOP_SELF,,,,,,0,wait,,,,\n"
           "8,call,0,0,STOP_SELF,,,,,,0,none,,,,\n");
}

static void record_name(struct recorder *recorder, const char *name)
{
    rec_call(recorder, &(struct rec_call){.service = REC_CREATE_EVENT, .name = name, .name_length = strlen(name), .outcome = REC_NO_ERROR});
}

static void names(void)
{
    struct recorder *recorder = open_ring(RING, REC_FORMAT_1);

    record_name(recorder, "EVENT 12");
    record_name(recorder, "a,b");
    record_name(recorder, "\"");
    record_name(recorder, "two \"words\", and more");
    record_name(recorder, "a line\nfeed");
    record_name(recorder, "ABCDEFGHIJKLMNOPQRSTUVWXYZABCDEF");
    expect("names", recorder,
           "0,call,0,0,CREATE_EVENT,,,,EVENT 12,,0,NO_ERROR,,,,\n"
           "1,call,0,0,CREATE_EVENT,,,,\"a,b\",,0,NO_ERROR,,,,\n"
           "2,call,0,0,CREATE_EVENT,,,,\"\"\"\",,0,NO_ERROR,,,,\n"
           "3,call,0,0,CREATE_EVENT,,,,\"two \"\"words\"\", and more\",,0,NO_ERROR,,,,\n"
           "4,call,0,0,CREATE_EVENT,,,,\"a line\nfeed\",,0,NO_ERROR,,,,\n"
           "5,call,0,0,CREATE_EVENT,,,,ABCDEFGHIJKLMNOPQRSTUVWXYZABCDEF,,0,NO_ERROR,,,,\n");
}

static void record_sending(struct recorder *recorder, const uint8_t *message, int64_t length)
{
    rec_call(recorder, &(struct rec_call){.service = REC_SEND_BUFFER, .n2 = length, .message = message, .outcome = REC_INVALID_PARAM});
}

/* A message is as long as the caller says, if a message can be that long, and else it is left out. */
static void lengths(void)
{
    struct recorder *recorder = open_ring(RING, REC_FORMAT_1);
    static const uint8_t message[] = {1, 2, 3, 4, 5, 6, 7, 8, 9, 10, 11, 12, 13, 14, 15, 16, 17};

    record_sending(recorder, message, 1);
    record_sending(recorder, message, 8);
    record_sending(recorder, message, 17);
    record_sending(recorder, message, 0);
    record_sending(recorder, message, -1);
    record_sending(recorder, message, 8193);
    record_sending(recorder, message, INT64_MIN);
    record_sending(recorder, NULL, 4);
    expect("lengths of messages", recorder,
           "0,call,0,0,SEND_BUFFER,0,1,0,,01,0,INVALID_PARAM,,,,\n"
           "1,call,0,0,SEND_BUFFER,0,8,0,,0102030405060708,0,INVALID_PARAM,,,,\n"
           "2,call,0,0,SEND_BUFFER,0,17,0,,0102030405060708090a0b0c0d0e0f1011,0,INVALID_PARAM,,,,\n"
           "3,call,0,0,SEND_BUFFER,0,0,0,,,0,INVALID_PARAM,,,,\n"
           "4,call,0,0,SEND_BUFFER,0,-1,0,,,0,INVALID_PARAM,,,,\n"
           "5,call,0,0,SEND_BUFFER,0,8193,0,,,0,INVALID_PARAM,,,,\n"
           "6,call,0,0,SEND_BUFFER,0,-9223372036854775808,0,,,0,INVALID_PARAM,,,,\n"
           "7,call,0,0,SEND_BUFFER,0,4,0,,,0,INVALID_PARAM,,,,\n");
}

static void longest_message(void)
{
    static uint8_t message[REC_MESSAGE_BYTES];
    static char row[2 * REC_MESSAGE_BYTES + 128];
    static const char start[] = "0,call,0,0,SEND_BUFFER,0,8192,0,,", end[] = ",0,INVALID_PARAM,,,,\n";
    struct recorder *recorder = open_ring(RING, REC_FORMAT_1);
    size_t i;

    memset(message, 0xb7, sizeof message);
    record_sending(recorder, message, REC_MESSAGE_BYTES);
    strcpy(row, start);
    for (i = 0; i < REC_MESSAGE_BYTES; i++)
        strcat(row + strlen(start) + 2 * i, "b7");
    strcat(row, end);
    expect("the longest message", recorder, row);
}

/* What no row can hold is lost, and has a row that is no record. */
static void limits(void)
{
    static const uint8_t data[REC_MESSAGE_BYTES + 1] = {0};
    static const struct rec_process woken[REC_WOKEN + 1] = {{0, 1}};
    struct recorder *recorder = open_ring(RING + 512, REC_FORMAT_1);

    record_name(recorder, "ABCDEFGHIJKLMNOPQRSTUVWXYZABCDEFG");
    rec_tick(recorder, woken, REC_WOKEN + 1);
    rec_ret(recorder, &(struct rec_return){.service = REC_READ_BLACKBOARD, .data = data, .data_length = sizeof data});
    rec_ret(recorder, &(struct rec_return){.service = REC_SERVICES});
    rec_ret(recorder, &(struct rec_return){.service = REC_GET_TIME, .code = REC_OUTCOMES});
    rec_ret(recorder, &(struct rec_return){.service = REC_GET_TIME, .value_count = 4});
    rec_tick(recorder, NULL, 0);
    expect("records above a limit", recorder, "0,lost,,,,6,,,,,,,,,,\n1,tick,,,,,,,,,,,,,,\n");
    count("how many were above a limit", rec_lost(recorder) == 6);
}

/* The ring. */

static void openings(void)
{
    static uint64_t memory[512];
    size_t size;
    bool is_refused = true;

    count("a core that there is not", rec_open(memory, sizeof memory, 16, REC_FORMAT_2) == NULL);
    count("a format that there is not", rec_open(memory, sizeof memory, 0, (enum rec_format)4) == NULL);
    count("no memory", rec_open(NULL, sizeof memory, 0, REC_FORMAT_2) == NULL);
    for (size = 0; size < 1024; size++)
        is_refused = is_refused && rec_open(memory, size, 0, REC_FORMAT_2) == NULL;
    count("memory that is too small", is_refused);
    count("memory that is large enough", rec_open(memory, 1024 + 512, 15, REC_FORMAT_2) != NULL);
    count("memory at any address", rec_open((char *)memory + 1, 1024 + 512, 0, REC_FORMAT_2) != NULL);
    count("the core", rec_core(open_ring(RING, REC_FORMAT_1)) == 3);
}

/* A dispatch takes 24 bytes, so a ring of 1,024 bytes takes 42. */
static void full_ring(void)
{
    struct recorder *recorder = open_ring(1024 + 512, REC_FORMAT_2);
    int i;

    for (i = 0; i < 42; i++)
        rec_disp(recorder, NULL);
    count("a ring that is just full", rec_lost(recorder) == 0);
    rec_disp(recorder, NULL);
    rec_disp(recorder, NULL);
    count("records that were lost", rec_lost(recorder) == 2);
    count("rows that are drained one by one", rec_drain(recorder, 1, keep, &drained) == 1 && rec_drain(recorder, 40, keep, &drained) == 40);
    drained.length = 0;
    expect("records that were lost at the end", recorder, "41,disp,,,,,,,,,,,,,,,,\n42,lost,,,,2,,,,,,,,,,,,\n");
    expect("they are reported once", recorder, "41,disp,,,,,,,,,,,,,,,,\n42,lost,,,,2,,,,,,,,,,,,\n");
    drained.length = 0;
    rec_tick(recorder, NULL, 0);
    expect("the ring goes on", recorder, "43,tick,,,,,,,,,,,,,,,,\n");
}

/*
 * A call of START takes 32 bytes, so such a ring takes 32 of them. Where one is drained, a tick would fit, but not with the mark of what
 * is missing, which takes 16.
 */
static void lost_between(void)
{
    struct recorder *recorder = open_ring(1024 + 512, REC_FORMAT_1);
    int i;

    for (i = 0; i < 35; i++)
        record_numbered(recorder, i);
    rec_drain(recorder, 1, keep, &drained);
    rec_tick(recorder, NULL, 0);
    count("a record without room for its mark is lost too", rec_lost(recorder) == 4);
    rec_drain(recorder, 29, keep, &drained);
    rec_tick(recorder, NULL, 0);
    drained.length = 0;
    expect("records that were lost before others", recorder,
           "30,call,0,0,START,30,,,,,0,NO_ERROR,,,,\n"
           "31,call,0,0,START,31,,,,,0,NO_ERROR,,,,\n"
           "32,lost,,,,4,,,,,,,,,,\n"
           "33,tick,,,,,,,,,,,,,,\n");
    for (i = 0; i < 65; i++)
        rec_disp(recorder, NULL);
    rec_drain(recorder, 42, keep, &drained);
    drained.length = 0;
    expect("others that are lost later", recorder, "76,lost,,,,23,,,,,,,,,,\n");
}

/* A record that is larger than the ring never fits. */
static void too_large(void)
{
    static const uint8_t message[2000] = {0};
    struct recorder *recorder = open_ring(1024 + 512, REC_FORMAT_1);

    record_sending(recorder, message, sizeof message);
    rec_tick(recorder, NULL, 0);
    expect("a record that is larger than the ring", recorder, "0,lost,,,,1,,,,,,,,,,\n1,tick,,,,,,,,,,,,,,\n");
}

/* A sink that refuses loses nothing. */
static void refusing_sink(void)
{
    struct recorder *recorder = open_ring(RING, REC_FORMAT_1);

    rec_tick(recorder, NULL, 0);
    rec_disp(recorder, NULL);
    drained.room = strlen("0,tick,,,,,,,,,,,,,,\n");
    count("a row before the sink refuses", rec_drain(recorder, SIZE_MAX, keep, &drained) == 1);
    drained.room = sizeof drained.text - 1;
    expect("the rest comes later", recorder, "0,tick,,,,,,,,,,,,,,\n1,disp,,,,,,,,,,,,,,\n");
}

/* Entries of many lengths go over the end of the ring. The rows are made by the library's own conversions. */
static void wrapping(void)
{
    struct recorder *recorder = open_ring(1024 + 512, REC_FORMAT_1);
    uint8_t message[64];
    bool is_right = true;
    int i, j;

    for (i = 0; i < 2000; i++) {
        char row[256];
        int length = 1 + i % 61, at;
        for (j = 0; j < length; j++)
            message[j] = (uint8_t)(i + j);
        record_sending(recorder, message, length);
        at = sprintf(row, "%d,call,0,0,SEND_BUFFER,0,%d,0,,", i, length);
        for (j = 0; j < length; j++)
            at += sprintf(row + at, "%02x", message[j]);
        sprintf(row + at, ",0,INVALID_PARAM,,,,\n");
        drained.length = 0;
        is_right = is_right && rec_drain(recorder, SIZE_MAX, keep, &drained) == 1 && strcmp(drained.text, row) == 0;
    }
    count("entries over the end of the ring", is_right && rec_lost(recorder) == 0);
}

/* A core and a drain at the same time. */

#define CALLS 50000

/* A core that does something else between two calls, for so many turns of a loop. */
struct pace {
    struct recorder *recorder;
    int turns;
};

static void *record_many(void *started)
{
    const struct pace *pace = started;
    int64_t number;
    volatile int turn;

    for (number = 0; number < CALLS; number++) {
        record_numbered(pace->recorder, number);
        for (turn = 0; turn < pace->turns; turn++)
            continue;
    }
    return NULL;
}

static void side_by_side(const char *name, size_t size, int turns)
{
    struct recorder *recorder = open_ring(size, REC_FORMAT_1);
    struct followed followed = {.is_right = true};
    struct pace pace = {recorder, turns};
    int idle = 0;
    pthread_t core;

    if (pthread_create(&core, NULL, record_many, &pace) != 0)
        exit(2);
    while (followed.next < CALLS && idle < 100000)
        if (rec_drain(recorder, SIZE_MAX, follow, &followed) == 0) {
            nanosleep(&(struct timespec){.tv_nsec = 10000}, NULL);
            idle++;
        }
    pthread_join(core, NULL);
    rec_drain(recorder, SIZE_MAX, follow, &followed);
    printf("  %ld rows, %ld records lost\n", followed.rows, followed.lost);
    count(name, followed.is_right && followed.next == CALLS && followed.lost == (long)rec_lost(recorder));
}

int main(void)
{
    kinds();
    services();
    later_fields();
    errors();
    outcomes();
    names();
    lengths();
    longest_message();
    limits();
    openings();
    full_ring();
    lost_between();
    too_large();
    refusing_sink();
    wrapping();
    side_by_side("a core and a drain at once", RING, 500);
    side_by_side("a core that does nothing else", RING, 0);
    side_by_side("a ring that is small", 1024 + 512, 500);
    printf("%d passed, %d failed\n", passed, failed);
    return failed != 0;
}

/*
 * What a record costs the core that makes it, and what a row costs the drain, in nanoseconds.
 *
 * Each figure is the median of many batches. A batch fits into the ring, so the drain is not at work while a batch is timed.
 */
#define _XOPEN_SOURCE 700
#include <stdio.h>
#include <stdlib.h>
#include <time.h>

#include "recorder.h"

#define BATCHES 301
#define RECORDS 400
#define RING ((1 << 18) + 512)

static const struct rec_process one = {1, 2}, two = {1, 3};
static const uint8_t message[1024] = {1};

static void make_disp(struct recorder *recorder)
{
    rec_disp(recorder, &one);
}

static void make_tick(struct recorder *recorder)
{
    rec_tick(recorder, NULL, 0);
}

static void make_waking_tick(struct recorder *recorder)
{
    rec_tick(recorder, &one, 1);
}

static void make_call(struct recorder *recorder)
{
    rec_call(recorder, &(struct rec_call){.caller = one, .service = REC_WAIT_SEMAPHORE, .n1 = 1, .n2 = -1, .priority = 10, .outcome = REC_WAIT});
}

static void make_waking_call(struct recorder *recorder)
{
    rec_call(recorder, &(struct rec_call){.caller = one,
                                          .service = REC_SIGNAL_SEMAPHORE,
                                          .n1 = 1,
                                          .priority = 10,
                                          .outcome = REC_NO_ERROR,
                                          .woken = &two,
                                          .woken_count = 1});
}

static void make_sending(struct recorder *recorder, int64_t length)
{
    rec_call(recorder, &(struct rec_call){.caller = one,
                                          .service = REC_SEND_QUEUING_MESSAGE,
                                          .n1 = 1,
                                          .n2 = length,
                                          .n3 = 5,
                                          .message = message,
                                          .priority = 10,
                                          .outcome = REC_NO_ERROR,
                                          .has_channel = true,
                                          .channel = 3});
}

static void make_short_sending(struct recorder *recorder)
{
    make_sending(recorder, 8);
}

static void make_longer_sending(struct recorder *recorder)
{
    make_sending(recorder, 256);
}

static void make_ret(struct recorder *recorder)
{
    rec_ret(recorder, &(struct rec_return){.caller = one, .service = REC_GET_TIME, .code = REC_NO_ERROR, .value_count = 1, .values = {12345}});
}

/* A stretch as in the workloads of the demo, of eight records: a tick that wakes, a return, two calls with their returns, a wait. */
static void make_stretch(struct recorder *recorder)
{
    make_waking_tick(recorder);
    make_disp(recorder);
    make_ret(recorder);
    make_short_sending(recorder);
    make_ret(recorder);
    make_waking_call(recorder);
    make_ret(recorder);
    make_call(recorder);
}

static bool forget(void *to, const char *text, size_t length)
{
    size_t *bytes = to;

    (void)text;
    *bytes += length;
    return true;
}

static double now(void)
{
    struct timespec time;

    clock_gettime(CLOCK_MONOTONIC, &time);
    return (double)time.tv_sec * 1e9 + (double)time.tv_nsec;
}

static int by_size(const void *one_time, const void *other_time)
{
    double difference = *(const double *)one_time - *(const double *)other_time;

    return (difference > 0) - (difference < 0);
}

static double median(double *times)
{
    qsort(times, BATCHES, sizeof times[0], by_size);
    return times[BATCHES / 2];
}

/* Prints what a record costs that is made by this function, `each` records at a time. */
static void measure(const char *name, void (*make)(struct recorder *), int each)
{
    static double recording[BATCHES], draining[BATCHES];
    void *memory = malloc(RING);
    struct recorder *recorder = rec_open(memory, RING, 0, REC_FORMAT_2);
    size_t bytes = 0, rows = 0;
    int batch, i;

    if (recorder == NULL)
        exit(2);
    for (batch = 0; batch < BATCHES; batch++) {
        double start = now(), middle;
        for (i = 0; i < RECORDS / each; i++)
            make(recorder);
        middle = now();
        rows += rec_drain(recorder, SIZE_MAX, forget, &bytes);
        recording[batch] = (middle - start) / RECORDS;
        draining[batch] = (now() - middle) / RECORDS;
    }
    if (rec_lost(recorder) > 0 || rows != (size_t)BATCHES * RECORDS)
        exit(3);
    printf("%-45s %6.1f %6.1f\n", name, median(recording), median(draining));
    free(memory);
}

int main(void)
{
    printf("%-45s %6s %6s\n", "nanoseconds for each", "record", "row");
    measure("dispatch", make_disp, 1);
    measure("tick that wakes nobody", make_tick, 1);
    measure("tick that wakes one process", make_waking_tick, 1);
    measure("call that waits", make_call, 1);
    measure("call that wakes one process", make_waking_call, 1);
    measure("call with a message of 8 bytes", make_short_sending, 1);
    measure("call with a message of 256 bytes", make_longer_sending, 1);
    measure("return with a value", make_ret, 1);
    measure("a mix as in the demo", make_stretch, 8);
    return 0;
}

/*
 * Runs a workload on the kernel of this folder, and records it.
 *
 *     demo [--format 1|2] [--fault NAME] [--ticks N] [--seed N] [--ring BYTES] [--late-drain] [--order] WORKLOAD FOLDER
 *
 * It writes FOLDER/core0.csv and so on. The rows are drained by a thread of their own while the cores run, or at the end with
 * --late-drain. With --order, FOLDER/order.csv gets the order in which the kernel made the records, which no module of several cores
 * knows so well. The last line of standard error says how many rows were written and how many records were lost.
 */
#define _XOPEN_SOURCE 700
#include <stdio.h>
#include <stdlib.h>
#include <string.h>
#include <time.h>

#include "kernel.h"

static const char *const FAULTS[] = {
    [NO_FAULT] = "none",
    [LOST_WAKE_UP] = "lost-wake-up",
    [LAST_IN_FIRST_OUT] = "last-in-first-out",
    [PRIORITY_KEPT] = "priority-kept",
    [STALE_CALLED_VALID] = "stale-called-valid",
    [WRONG_AT_TIE] = "wrong-at-tie",
    [LOST_TICK] = "lost-tick",
};

#define FAULT_COUNT (sizeof FAULTS / sizeof FAULTS[0])

struct settings {
    const struct module *module;
    const char *folder;
    enum rec_format format;
    enum fault fault;
    long ticks, seed, ring;
    bool drains_late, has_order;
};

/* The recordings, and the thread that drains into them. */
static struct recorder *recorders[MOST_CORES];
static FILE *files[MOST_CORES];
static size_t rows;

static bool write_to_file(void *to, const char *text, size_t length)
{
    return fwrite(text, 1, length, to) == length;
}

static void drain_all(void)
{
    unsigned i;

    for (i = 0; i < MOST_CORES && recorders[i] != NULL; i++)
        rows += rec_drain(recorders[i], SIZE_MAX, write_to_file, files[i]);
}

static pthread_mutex_t drain_lock = PTHREAD_MUTEX_INITIALIZER;
static bool drain_ends;

static void *run_drain(void *unused)
{
    bool ends = false;

    while (!ends) {
        drain_all();
        nanosleep(&(struct timespec){.tv_nsec = 200000}, NULL);
        pthread_mutex_lock(&drain_lock);
        ends = drain_ends;
        pthread_mutex_unlock(&drain_lock);
    }
    return unused;
}

static void fail(const char *what)
{
    fprintf(stderr, "demo: %s\n", what);
    exit(2);
}

static const struct module *module_of(const char *name)
{
    if (strcmp(name, "sensor") == 0)
        return &sensor_module;
    if (strcmp(name, "talkers") == 0)
        return &talkers_module;
    fail("the workload is sensor or talkers");
    return NULL;
}

static enum fault fault_of(const char *name)
{
    size_t i;

    for (i = 0; i < FAULT_COUNT; i++)
        if (strcmp(FAULTS[i], name) == 0)
            return (enum fault)i;
    fail("there is no such fault");
    return NO_FAULT;
}

static long number_of(const char *word, long least)
{
    char *end;
    long number = strtol(word, &end, 10);

    if (*word == '\0' || *end != '\0' || number < least)
        fail("a number is wrong");
    return number;
}

static struct settings read_words(int count, char **words)
{
    struct settings settings = {.format = REC_FORMAT_2, .ticks = 400, .seed = 1, .ring = 1 << 20};
    int i = 1;

    for (; i < count && strncmp(words[i], "--", 2) == 0; i++) {
        if (strcmp(words[i], "--late-drain") == 0) {
            settings.drains_late = true;
            continue;
        }
        if (strcmp(words[i], "--order") == 0) {
            settings.has_order = true;
            continue;
        }
        if (i + 1 == count)
            fail("an option has no value");
        i++;
        if (strcmp(words[i - 1], "--format") == 0)
            settings.format = number_of(words[i], 1) == 1 ? REC_FORMAT_1 : REC_FORMAT_2;
        else if (strcmp(words[i - 1], "--fault") == 0)
            settings.fault = fault_of(words[i]);
        else if (strcmp(words[i - 1], "--ticks") == 0)
            settings.ticks = number_of(words[i], 1);
        else if (strcmp(words[i - 1], "--seed") == 0)
            settings.seed = number_of(words[i], 0);
        else if (strcmp(words[i - 1], "--ring") == 0)
            settings.ring = number_of(words[i], 0);
        else
            fail("there is no such option");
    }
    if (i + 2 != count)
        fail("expected a workload and a folder");
    settings.module = module_of(words[i]);
    settings.folder = words[i + 1];
    return settings;
}

static FILE *open_file(const char *folder, const char *name)
{
    char path[4096];
    FILE *file;

    if (snprintf(path, sizeof path, "%s/%s", folder, name) >= (int)sizeof path)
        fail("the name of the folder is too long");
    file = fopen(path, "w");
    if (file == NULL)
        fail("a file cannot be written");
    return file;
}

static void close_file(FILE *file)
{
    if (ferror(file) || fclose(file) != 0)
        fail("a file cannot be written");
}

/* Opens a recorder and a file for each core. */
static void open_recordings(const struct settings *settings)
{
    unsigned i;

    for (i = 0; i < settings->module->core_count; i++) {
        char name[32];
        recorders[i] = rec_open(malloc((size_t)settings->ring), (size_t)settings->ring, i, settings->format);
        if (recorders[i] == NULL)
            fail("the ring is too small");
        snprintf(name, sizeof name, "core%u.csv", i);
        files[i] = open_file(settings->folder, name);
    }
}

int main(int count, char **words)
{
    struct settings settings = read_words(count, words);
    FILE *order = settings.has_order ? open_file(settings.folder, "order.csv") : NULL;
    pthread_t drain;
    size_t lost = 0;
    unsigned i;

    open_recordings(&settings);
    kernel_start(settings.module, settings.fault, settings.format == REC_FORMAT_2, recorders, order);
    if (!settings.drains_late && pthread_create(&drain, NULL, run_drain, NULL) != 0)
        fail("there is no thread for the drain");
    kernel_run(settings.ticks, (uint32_t)settings.seed);
    if (!settings.drains_late) {
        pthread_mutex_lock(&drain_lock);
        drain_ends = true;
        pthread_mutex_unlock(&drain_lock);
        pthread_join(drain, NULL);
    }
    drain_all();
    for (i = 0; i < settings.module->core_count; i++) {
        lost += rec_lost(recorders[i]);
        close_file(files[i]);
    }
    if (order != NULL)
        close_file(order);
    fprintf(stderr, "demo: %zu rows, %zu records lost\n", rows, lost);
    return 0;
}

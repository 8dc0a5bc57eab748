/* Cores, dispatching and ticks. */
#define _XOPEN_SOURCE 700
#include "kernel.h"

#include <stdlib.h>

struct kernel kernel;

static pthread_key_t core_of_thread;

void kernel_lock(void)
{
    pthread_mutex_lock(&kernel.lock);
}

void kernel_unlock(void)
{
    pthread_mutex_unlock(&kernel.lock);
}

void interrupt(struct core *core)
{
    pthread_cond_signal(&core->interrupt);
}

void note_order(struct core *core)
{
    if (kernel.order != NULL)
        fprintf(kernel.order, "%u,%lu\n", core->number, core->records++);
}

struct core *this_core(void)
{
    return pthread_getspecific(core_of_thread);
}

bool is_faulty(const struct partition *partition, enum fault fault)
{
    return kernel.fault == fault && partition->number == 0;
}

bool has_statuses(void)
{
    return kernel.has_statuses;
}

unsigned partition_number(void)
{
    return this_core()->occupant->partition->number;
}

/* The process that should run: the first ready one of the partition whose window is open, or NULL. */
static struct process *choice_of(const struct core *core)
{
    int64_t offset = core->time % kernel.module->frame;
    unsigned i;

    for (i = 0; i < kernel.module->window_count; i++) {
        const struct window *window = &kernel.module->windows[i];
        if (window->core == core->number && window->start <= offset && offset < window->start + window->length)
            return first_ready(&core->ready[window->partition]);
    }
    return NULL;
}

/* The thread of the core goes on in another context. The lock is free meanwhile: no other thread enters a context of this core. */
static void run_context(struct core *core, struct context *to)
{
    struct context *from = core->runs;

    core->runs = to;
    kernel_unlock();
    context_switch(from, to);
    kernel_lock();
}

static void run_process(void)
{
    struct core *core = this_core();
    void (*entry)(void);

    kernel_lock();
    settle(core);
    entry = core->occupant->entry;
    kernel_unlock();
    entry();
    STOP_SELF();
}

/* Gives the core to a process, or leaves it idle. It is recorded before the switch, by the context that is left. */
static void dispatch(struct core *core, struct process *process)
{
    core->occupant = process;
    if (process == NULL) {
        rec_disp(core->recorder, NULL);
        note_order(core);
        if (core->runs != &core->idle)
            run_context(core, &core->idle);
        return;
    }
    rec_disp(core->recorder, &(struct rec_process){process->partition->number, process->number});
    note_order(core);
    if (process->must_begin) {
        process->must_begin = false;
        context_prepare(&process->context, run_process);
    }
    if (core->runs != &process->context)
        run_context(core, &process->context);
}

/* The core's time rises by one. The waits that are due end, and the record names whose they are. */
static void tick(struct core *core)
{
    struct process *due[MOST_WOKEN];
    struct rec_process woken[MOST_WOKEN];
    size_t count, i;

    core->has_tick = false;
    core->time++;
    if (core->occupant != NULL && core->occupant->work > 0)
        core->occupant->work--;
    if (kernel.fault == LOST_TICK && core->number == 0 && core->time == 8)
        return;
    count = take_due(core, due);
    for (i = 0; i < count; i++) {
        bool waits_for_time = due[i]->waits_in == REC_TIMED_WAIT || due[i]->waits_in == REC_PERIODIC_WAIT;
        woken[i] = (struct rec_process){due[i]->partition->number, due[i]->number};
        due[i]->result = (struct result){.code = waits_for_time ? NO_ERROR : TIMED_OUT};
        if (due[i]->waits_for_release)
            due[i]->last_release = due[i]->due_time;
        due[i]->waits_for_release = false;
    }
    rec_tick(core->recorder, woken, count);
    note_order(core);
    make_all_ready(due, count);
}

void settle(struct core *core)
{
    while (!kernel.is_over) {
        struct process *choice = choice_of(core);
        if (choice != core->occupant)
            dispatch(core, choice);
        else if (core->has_tick)
            tick(core);
        else
            return;
    }
    /* The run is over: a process is left where it is, and its core's thread ends. */
    if (core->runs != &core->idle)
        run_context(core, &core->idle);
}

static bool is_at_rest(const struct core *core)
{
    return core->is_at_rest && !core->has_tick && choice_of(core) == core->occupant;
}

static void await_interrupt(struct core *core)
{
    core->is_at_rest = true;
    pthread_cond_signal(&kernel.rests);
    while (is_at_rest(core) && !kernel.is_over)
        pthread_cond_wait(&core->interrupt, &kernel.lock);
    core->is_at_rest = false;
}

void compute(int64_t ticks)
{
    struct core *core = this_core();
    struct process *process;

    kernel_lock();
    settle(core);
    process = core->occupant;
    process->work = ticks;
    while (process->work > 0) {
        await_interrupt(core);
        settle(core);
    }
    kernel_unlock();
}

static void *run_core(void *started)
{
    struct core *core = started;

    pthread_setspecific(core_of_thread, core);
    context_adopt(&core->idle);
    core->runs = &core->idle;
    kernel_lock();
    for (;;) {
        settle(core);
        if (kernel.is_over)
            break;
        await_interrupt(core);
    }
    kernel_unlock();
    return NULL;
}

static void start_partition(uint8_t number)
{
    struct partition *partition = &kernel.partitions[number];
    struct process *initialising = &partition->processes[0];

    partition->number = number;
    partition->setup = &kernel.module->partitions[number];
    partition->mode = MODE_COLD_START;
    initialising->entry = partition->setup->initialise;
    initialising->partition = partition;
    initialising->core = &kernel.cores[partition->setup->cores[0]];
    initialising->must_begin = true;
    initialising->period = APERIODIC;
    make_ready(initialising);
}

static void start_channel(uint8_t number)
{
    struct channel *channel = &kernel.channels[number];

    channel->setup = &kernel.module->channels[number];
    channel->number = number;
    channel->queue.size = channel->setup->size;
    channel->queue.capacity = channel->setup->capacity;
    channel->queue.senders.discipline = channel->setup->source.discipline;
    channel->queue.receivers.discipline = channel->setup->destinations[0].discipline;
}

void kernel_start(const struct module *module, enum fault fault, bool has_statuses, struct recorder *const *recorders, FILE *order)
{
    unsigned i;

    pthread_key_create(&core_of_thread, NULL);
    pthread_mutex_init(&kernel.lock, NULL);
    pthread_cond_init(&kernel.rests, NULL);
    kernel.module = module;
    kernel.fault = fault;
    kernel.has_statuses = has_statuses;
    kernel.order = order;
    for (i = 0; i < module->core_count; i++) {
        kernel.cores[i].number = i;
        kernel.cores[i].recorder = recorders[i];
        pthread_cond_init(&kernel.cores[i].interrupt, NULL);
    }
    for (i = 0; i < module->channel_count; i++)
        start_channel((uint8_t)i);
    for (i = 0; i < module->partition_count; i++)
        start_partition((uint8_t)i);
}

static uint32_t random_bit(uint32_t *seed)
{
    *seed = *seed * 1664525U + 1013904223U;
    return *seed >> 31;
}

static void await_rest(void)
{
    unsigned i = 0;

    while (i < kernel.module->core_count) {
        if (is_at_rest(&kernel.cores[i])) {
            i++;
        } else {
            pthread_cond_wait(&kernel.rests, &kernel.lock);
            i = 0;
        }
    }
}

/* Lets the timers of some cores tick, which each handles when it takes the lock. Answers whether a core has ticks left. */
static bool let_some_tick(int64_t ticks, int64_t *given, uint32_t *seed)
{
    int64_t least = given[0];
    bool is_left = false;
    unsigned i;

    for (i = 1; i < kernel.module->core_count; i++)
        if (given[i] < least)
            least = given[i];
    for (i = 0; i < kernel.module->core_count; i++) {
        struct core *core = &kernel.cores[i];
        bool may_tick = given[i] < ticks && given[i] < least + kernel.module->skew;
        is_left = is_left || given[i] < ticks;
        if (may_tick && random_bit(seed)) {
            given[i]++;
            core->has_tick = true;
            interrupt(core);
        }
    }
    return is_left;
}

void kernel_run(int64_t ticks, uint32_t seed)
{
    int64_t given[MOST_CORES] = {0};
    unsigned i;

    for (i = 0; i < kernel.module->core_count; i++)
        if (pthread_create(&kernel.cores[i].thread, NULL, run_core, &kernel.cores[i]) != 0)
            abort();
    kernel_lock();
    do
        await_rest();
    while (let_some_tick(ticks, given, &seed));
    await_rest();
    kernel.is_over = true;
    for (i = 0; i < kernel.module->core_count; i++)
        interrupt(&kernel.cores[i]);
    kernel_unlock();
    for (i = 0; i < kernel.module->core_count; i++)
        pthread_join(kernel.cores[i].thread, NULL);
}

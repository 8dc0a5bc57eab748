/* A module as its integrator configures it. The file WORKLOAD.toml beside each workload says the same to apexcheck. */
#ifndef MODULE_H
#define MODULE_H

#include "apex.h"

#define MOST_CORES 4
#define MOST_PARTITIONS 8
#define MOST_DESTINATIONS 4

/* A window gives a core to a partition, in each major frame. */
struct window {
    unsigned core, partition;
    int64_t start, length;
};

struct partition_setup {
    int64_t period;
    unsigned cores[MOST_CORES]; /* the first one runs the initialising process */
    unsigned core_count;
    void (*initialise)(void); /* ends with SET_PARTITION_MODE to NORMAL */
};

/* An end of a channel. */
struct channel_end {
    unsigned partition;
    const char *port;
    enum discipline discipline; /* of a queuing port */
};

struct channel_setup {
    bool is_queuing;
    int64_t size;
    int64_t refresh;  /* of a sampling channel */
    int64_t capacity; /* of a queuing channel */
    struct channel_end source;
    struct channel_end destinations[MOST_DESTINATIONS]; /* a queuing channel has one */
    unsigned destination_count;
};

/* Partitions and channels have their places in these lists as numbers. */
struct module {
    unsigned core_count, partition_count, window_count, channel_count;
    int64_t frame, skew;
    const struct partition_setup *partitions;
    const struct window *windows;
    const struct channel_setup *channels;
};

/* The workloads. */
extern const struct module sensor_module;
extern const struct module talkers_module;

#endif

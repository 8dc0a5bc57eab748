/*
 * A sensor with an alarm, on two cores. Partition 1 measures a speed: it writes it to a sampling port, and sends an alarm through a
 * queuing port if it is too high. Now and then it is silent, so that the last speed grows old. Partition 0 shows the speed, sounds its
 * horns in turn at an alarm, and asks the sensor to calibrate itself if no alarm has come for long.
 */
#include "module.h"

#define SPEED_BYTES 4
#define REFRESH 6

/* Partition 0, the display. */

static int64_t speed_port, alarm_port, request_port, horn, panel, speed_board;

static void sound_horn(void)
{
    int64_t time;

    for (;;) {
        WAIT_SEMAPHORE(horn, FOR_EVER);
        compute(1);
        GET_TIME(&time);
    }
}

static void handle_alarms(void)
{
    uint8_t alarm[SPEED_BYTES];
    uint8_t request = 0;
    size_t length;

    for (;;) {
        enum return_code code = RECEIVE_QUEUING_MESSAGE(alarm_port, 25, alarm, &length);
        if (code == NO_ERROR) {
            SIGNAL_SEMAPHORE(horn);
        } else if (code == TIMED_OUT) {
            request++;
            SEND_QUEUING_MESSAGE(request_port, &request, 1, 0);
        }
    }
}

/* The speed is read some ticks after the sensor writes it. One that is too old is taken off the display. */
static void show_speed(void)
{
    uint8_t speed[SPEED_BYTES];
    size_t length;
    bool is_valid;

    for (;;) {
        TIMED_WAIT(3);
        if (READ_SAMPLING_MESSAGE(speed_port, speed, &length, &is_valid) == NO_ERROR && is_valid)
            DISPLAY_BLACKBOARD(speed_board, speed, (int64_t)length);
        else
            CLEAR_BLACKBOARD(speed_board);
        if (has_statuses())
            GET_SAMPLING_PORT_STATUS(speed_port, &is_valid);
        PERIODIC_WAIT();
    }
}

static void light_panel(void)
{
    int64_t self;
    struct mutex_status status;

    for (;;) {
        ACQUIRE_MUTEX(panel, 4);
        if (has_statuses())
            GET_MUTEX_STATUS(panel, &status);
        compute(2);
        RELEASE_MUTEX(panel);
        GET_MY_ID(&self);
        TIMED_WAIT(9);
    }
}

static void keep_log(void)
{
    uint8_t speed[SPEED_BYTES];
    size_t length;
    int64_t time;

    for (;;) {
        READ_BLACKBOARD(speed_board, 12, speed, &length);
        if (ACQUIRE_MUTEX(panel, 1) == NO_ERROR) {
            compute(1);
            RELEASE_MUTEX(panel);
        }
        GET_TIME(&time);
        TIMED_WAIT(5);
    }
}

static void initialise_display(void)
{
    int64_t process;

    CREATE_SAMPLING_PORT("SPEED", SPEED_BYTES, DESTINATION, REFRESH, &speed_port);
    CREATE_QUEUING_PORT("ALARM", SPEED_BYTES, 2, DESTINATION, FIFO, &alarm_port);
    CREATE_QUEUING_PORT("REQUEST", 1, 1, SOURCE, FIFO, &request_port);
    CREATE_SEMAPHORE("HORN", 0, 2, FIFO, &horn);
    CREATE_MUTEX("PANEL", 40, PRIORITY, &panel);
    CREATE_BLACKBOARD("SPEED", SPEED_BYTES, &speed_board);
    CREATE_PROCESS("HORN 1", sound_horn, 25, APERIODIC, &process);
    START(process);
    CREATE_PROCESS("HORN 2", sound_horn, 25, APERIODIC, &process);
    START(process);
    CREATE_PROCESS("ALARM", handle_alarms, 30, APERIODIC, &process);
    START(process);
    CREATE_PROCESS("SPEED", show_speed, 20, 10, &process);
    START(process);
    CREATE_PROCESS("PANEL", light_panel, 15, APERIODIC, &process);
    START(process);
    CREATE_PROCESS("LOG", keep_log, 10, APERIODIC, &process);
    START(process);
    SET_PARTITION_MODE(MODE_NORMAL);
}

/* Partition 1, the sensor. */

static int64_t measured_port, raised_port, asked_port, offset_buffer;

/* A speed that changes with each measurement, so that no two are the same. */
static void measure(uint32_t count, uint8_t *speed)
{
    speed[0] = (uint8_t)(count >> 8);
    speed[1] = (uint8_t)count;
    speed[2] = (uint8_t)(count * 37);
    speed[3] = (uint8_t)(count * 11);
}

static void measure_speed(void)
{
    uint8_t speed[SPEED_BYTES], offset[1];
    size_t length;
    uint32_t count = 0;

    for (;;) {
        measure(++count, speed);
        RECEIVE_BUFFER(offset_buffer, 0, offset, &length);
        if (count % 6 != 4 && count % 6 != 5)
            WRITE_SAMPLING_MESSAGE(measured_port, speed, SPEED_BYTES);
        if (count % 4 == 2 || count % 4 == 3)
            SEND_QUEUING_MESSAGE(raised_port, speed, SPEED_BYTES, 5);
        PERIODIC_WAIT();
    }
}

static void calibrate(void)
{
    uint8_t request[1];
    size_t length;

    for (;;) {
        if (RECEIVE_QUEUING_MESSAGE(asked_port, FOR_EVER, request, &length) == NO_ERROR) {
            compute(4);
            SEND_BUFFER(offset_buffer, request, 1, FOR_EVER);
        }
    }
}

static void initialise_sensor(void)
{
    int64_t process;

    CREATE_SAMPLING_PORT("SPEED", SPEED_BYTES, SOURCE, REFRESH, &measured_port);
    CREATE_QUEUING_PORT("ALARM", SPEED_BYTES, 2, SOURCE, FIFO, &raised_port);
    CREATE_QUEUING_PORT("REQUEST", 1, 1, DESTINATION, FIFO, &asked_port);
    CREATE_BUFFER("OFFSET", 1, 1, FIFO, &offset_buffer);
    CREATE_PROCESS("SENSOR", measure_speed, 20, 10, &process);
    START(process);
    CREATE_PROCESS("CALIBRATION", calibrate, 10, APERIODIC, &process);
    START(process);
    SET_PARTITION_MODE(MODE_NORMAL);
}

/* The module. Core 1 has no window at the end of each frame. */

static const struct partition_setup partitions[] = {
    {.period = 10, .cores = {0}, .core_count = 1, .initialise = initialise_display},
    {.period = 10, .cores = {1}, .core_count = 1, .initialise = initialise_sensor},
};

static const struct window windows[] = {
    {.core = 0, .partition = 0, .start = 0, .length = 10},
    {.core = 1, .partition = 1, .start = 0, .length = 8},
};

static const struct channel_setup channels[] = {
    {.size = SPEED_BYTES, .refresh = REFRESH, .source = {1, "SPEED", FIFO}, .destinations = {{0, "SPEED", FIFO}}, .destination_count = 1},
    {.is_queuing = true,
     .size = SPEED_BYTES,
     .capacity = 2,
     .source = {1, "ALARM", FIFO},
     .destinations = {{0, "ALARM", FIFO}},
     .destination_count = 1},
    {.is_queuing = true,
     .size = 1,
     .capacity = 1,
     .source = {0, "REQUEST", FIFO},
     .destinations = {{1, "REQUEST", FIFO}},
     .destination_count = 1},
};

const struct module sensor_module = {
    .core_count = 2,
    .partition_count = 2,
    .window_count = 2,
    .channel_count = 3,
    .frame = 10,
    .skew = 2,
    .partitions = partitions,
    .windows = windows,
    .channels = channels,
};

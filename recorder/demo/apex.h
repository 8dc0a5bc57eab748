/*
 * The services of ARINC 653 that the demo has, as its partitions see them. Each returns its return code. Times are in ticks. A service
 * that waits takes a time-out: FOR_EVER waits without one, and 0 does not wait.
 */
#ifndef APEX_H
#define APEX_H

#include <stdbool.h>
#include <stddef.h>
#include <stdint.h>

#define FOR_EVER INT64_C(-1)
#define APERIODIC INT64_C(-1)

enum return_code { NO_ERROR, NO_ACTION, NOT_AVAILABLE, INVALID_PARAM, INVALID_CONFIG, INVALID_MODE, TIMED_OUT };
enum discipline { FIFO, PRIORITY };
enum direction { SOURCE, DESTINATION };
enum mode { MODE_IDLE, MODE_COLD_START, MODE_WARM_START, MODE_NORMAL };

struct buffer_status {
    int64_t messages, waiting;
};

struct mutex_status {
    int64_t owner, waiting, lock_count;
};

/* Processes, time and the partition's mode. */
enum return_code CREATE_PROCESS(const char *name, void (*entry)(void), int64_t priority, int64_t period, int64_t *process);
enum return_code INITIALIZE_PROCESS_CORE_AFFINITY(int64_t process, int64_t core);
enum return_code START(int64_t process);
enum return_code STOP(int64_t process);
void STOP_SELF(void);
enum return_code SUSPEND(int64_t process);
enum return_code SUSPEND_SELF(int64_t time_out);
enum return_code RESUME(int64_t process);
enum return_code SET_PRIORITY(int64_t process, int64_t priority);
enum return_code GET_MY_ID(int64_t *process);
enum return_code TIMED_WAIT(int64_t delay);
enum return_code PERIODIC_WAIT(void);
enum return_code GET_TIME(int64_t *time);
enum return_code SET_PARTITION_MODE(enum mode mode);

/* Objects of a partition. */
enum return_code CREATE_BUFFER(const char *name, int64_t size, int64_t capacity, enum discipline discipline, int64_t *buffer);
enum return_code SEND_BUFFER(int64_t buffer, const void *message, int64_t length, int64_t time_out);
enum return_code RECEIVE_BUFFER(int64_t buffer, int64_t time_out, void *message, size_t *length);
enum return_code CREATE_BLACKBOARD(const char *name, int64_t size, int64_t *blackboard);
enum return_code DISPLAY_BLACKBOARD(int64_t blackboard, const void *message, int64_t length);
enum return_code READ_BLACKBOARD(int64_t blackboard, int64_t time_out, void *message, size_t *length);
enum return_code CLEAR_BLACKBOARD(int64_t blackboard);
enum return_code CREATE_SEMAPHORE(const char *name, int64_t value, int64_t maximum, enum discipline discipline, int64_t *semaphore);
enum return_code WAIT_SEMAPHORE(int64_t semaphore, int64_t time_out);
enum return_code SIGNAL_SEMAPHORE(int64_t semaphore);
enum return_code CREATE_EVENT(const char *name, int64_t *event);
enum return_code SET_EVENT(int64_t event);
enum return_code RESET_EVENT(int64_t event);
enum return_code WAIT_EVENT(int64_t event, int64_t time_out);
enum return_code CREATE_MUTEX(const char *name, int64_t priority, enum discipline discipline, int64_t *mutex);
enum return_code ACQUIRE_MUTEX(int64_t mutex, int64_t time_out);
enum return_code RELEASE_MUTEX(int64_t mutex);

/* Ports. */
enum return_code CREATE_SAMPLING_PORT(const char *name, int64_t size, enum direction direction, int64_t refresh, int64_t *port);
enum return_code WRITE_SAMPLING_MESSAGE(int64_t port, const void *message, int64_t length);
enum return_code READ_SAMPLING_MESSAGE(int64_t port, void *message, size_t *length, bool *is_valid);
enum return_code CREATE_QUEUING_PORT(const char *name, int64_t size, int64_t capacity, enum direction direction,
                                     enum discipline discipline, int64_t *port);
enum return_code SEND_QUEUING_MESSAGE(int64_t port, const void *message, int64_t length, int64_t time_out);
enum return_code RECEIVE_QUEUING_MESSAGE(int64_t port, int64_t time_out, void *message, size_t *length);

/* The services that return the number of a name, or a status. A recording in format 1 has no rows for them: see `has_statuses`. */
enum return_code GET_SEMAPHORE_ID(const char *name, int64_t *semaphore);
enum return_code GET_QUEUING_PORT_ID(const char *name, int64_t *port);
enum return_code GET_BUFFER_STATUS(int64_t buffer, struct buffer_status *status);
enum return_code GET_MUTEX_STATUS(int64_t mutex, struct mutex_status *status);
enum return_code GET_SAMPLING_PORT_STATUS(int64_t port, bool *was_valid);
enum return_code GET_QUEUING_PORT_STATUS(int64_t port, struct buffer_status *status);

/* Whether the partition may call the services that format 1 does not have. */
bool has_statuses(void);

/* Not a service: the number of the partition. */
unsigned partition_number(void);

/* Not a service: the process runs until it has had the processor for so many ticks. */
void compute(int64_t ticks);

#endif

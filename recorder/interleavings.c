/*
 * Tests the ring in every order in which the core and the drain can interrupt one another once. The atomic accesses of recorder.c are
 * all that they share. Here each of them first runs the other side, if it is its turn, in the same thread.
 *
 * It prints one line for each case, and then `N passed, M failed`.
 */
static void before_access(void);

#define REC_LOAD_ACQUIRE(from) (before_access(), __atomic_load_n((from), __ATOMIC_ACQUIRE))
#define REC_STORE_RELEASE(to, value) (before_access(), __atomic_store_n((to), (value), __ATOMIC_RELEASE))
#include "recorder.c"

#include "followed.h"

/* A call of START takes 32 bytes, so a ring of 1,024 bytes has room for 32 calls. */
#define ROOM 32

static struct recorder *recorder;
static struct followed followed;
static int64_t calls;            /* that the core has made */
static long accesses, turn;      /* of the side that is interrupted */
static void (*other_side)(void); /* runs at its turn; NULL while it runs */
static int more_calls;

static void before_access(void)
{
    void (*interrupts)(void) = other_side;

    if (interrupts == NULL || accesses++ != turn)
        return;
    other_side = NULL;
    interrupts();
}

static void make_calls(int count)
{
    while (count-- > 0)
        record_numbered(recorder, calls++);
}

static void make_more_calls(void)
{
    make_calls(more_calls);
}

static void drain_all(void)
{
    rec_drain(recorder, SIZE_MAX, follow, &followed);
}

/* Opens a ring that has so many calls, of which some are lost, and of which so many were drained. */
static void begin(int before, size_t drained)
{
    static uint64_t memory[(1024 + 512) / sizeof(uint64_t)];

    other_side = NULL;
    calls = 0;
    followed = (struct followed){.is_right = true};
    recorder = rec_open(memory, sizeof memory, 0, REC_FORMAT_1);
    make_calls(before);
    rec_drain(recorder, drained, follow, &followed);
    accesses = 0;
}

/* At the end, each call has its row or is counted as lost where it is missing. */
static bool is_whole(void)
{
    other_side = NULL;
    drain_all();
    return followed.is_right && followed.next == calls && followed.lost == (long)rec_lost(recorder);
}

/* A drain that the core interrupts at each of its accesses with so many calls. Answers how many cases there are, or 0 if one fails. */
static long core_interrupts(int before, size_t drained)
{
    long cases = 0;
    bool has_turn = true;

    for (turn = 0; has_turn; turn++) {
        for (more_calls = 1; more_calls <= ROOM + 2; more_calls += more_calls == 3 ? ROOM - 5 : 1) {
            begin(before, drained);
            other_side = make_more_calls;
            drain_all();
            has_turn = other_side == NULL;
            if (!is_whole())
                return 0;
            cases++;
        }
    }
    return cases;
}

/* A call that the drain interrupts at each of its accesses. */
static long drain_interrupts(int before, size_t drained)
{
    long cases = 0;
    bool has_turn = true;

    for (turn = 0; has_turn; turn++) {
        begin(before, drained);
        other_side = drain_all;
        make_calls(2);
        has_turn = other_side == NULL;
        make_calls(1);
        if (!is_whole())
            return 0;
        cases++;
    }
    return cases;
}

/* Tries rings that are empty, full, and fuller than full, drained by some rows. */
static bool try_all(const char *name, long (*interrupt)(int, size_t))
{
    long cases = 0;
    int before;
    size_t drained;

    for (before = 0; before <= ROOM + 3; before += before == 3 ? ROOM - 5 : 1) {
        for (drained = 0; drained <= 4; drained++) {
            long more = interrupt(before, drained);
            if (more == 0) {
                printf("FAILED: %s: %d calls, of which %zu rows are drained, at access %ld\n", name, before, drained, turn);
                return false;
            }
            cases += more;
        }
    }
    printf("ok: %s\n", name);
    printf("  %ld orders\n", cases);
    return true;
}

int main(void)
{
    int passed = try_all("a drain that the core interrupts", core_interrupts) + try_all("a core that the drain interrupts", drain_interrupts);

    printf("%d passed, %d failed\n", passed, 2 - passed);
    return passed != 2;
}

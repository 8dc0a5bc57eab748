/*
 * The ring of a core, and the rows of what is in it.
 *
 * An entry is a few words of 64 bits: a head, and then, in this order and as far as it has them: its values, its numbers, its name, its
 * message, its data, and its woken processes. `put` writes an entry, and `write_record` reads it. A further kind of record is one more
 * name in `KINDS`, and one more function beside `rec_ret` that fills an entry.
 */
#include "recorder.h"

/*
 * C99 has no atomic operations. These two are all that the ring needs: a load that no later access precedes, and a store that no
 * earlier access follows. They are builtins of GCC, Clang and compilers that follow them. A port to another compiler defines both
 * before this line, for example in a header that is given on the command line. On a processor whose loads and stores of a `size_t`
 * are indivisible, a volatile access with a barrier after the load and before the store does.
 */
#ifndef REC_LOAD_ACQUIRE
#define REC_LOAD_ACQUIRE(from) __atomic_load_n((from), __ATOMIC_ACQUIRE)
#define REC_STORE_RELEASE(to, value) __atomic_store_n((to), (value), __ATOMIC_RELEASE)
#endif

/* What two cores write lies this far apart, so that neither slows the other down: a power of two, 8 or more. */
#ifndef REC_CACHE_LINE
#define REC_CACHE_LINE 64
#endif

#define LEAST_WORDS 128

struct recorder {
    /* Set when the recorder is opened. */
    uint64_t *words;
    size_t capacity; /* words, a power of two */
    enum rec_format format;
    unsigned core;
    char apart_from_core[REC_CACHE_LINE];
    /* Written by the core. Positions count the words since the start and wrap around; the drain reads `head` and `lost`. */
    size_t head;
    size_t lost;
    size_t marked;    /* how many of the lost records have a mark in the ring */
    size_t last_tail; /* a tail that the core has seen */
    char apart_from_drain[REC_CACHE_LINE];
    /* Written by the drain. The core reads `tail`. */
    size_t tail;
    size_t reported; /* how many of the lost records have a row */
    uint64_t rows;
};

enum kind { DISP, TICK, CALL, RET, ARRIVE, DEPART, ERROR, LOST };

static const char *const KINDS[] = {
    [DISP] = "disp",     [TICK] = "tick",     [CALL] = "call", [RET] = "ret",
    [ARRIVE] = "arrive", [DEPART] = "depart", [ERROR] = "err", [LOST] = "lost",
};

/* The fields that an entry has, beside those whose length says so. */
enum field {
    HAS_N1 = 1,
    HAS_N2 = 2,
    HAS_N3 = 4,
    HAS_PROCESS = 8,
    HAS_SERVICE = 16,
    HAS_NAME = 32,
    HAS_MESSAGE = 64,
    HAS_PRIORITY = 128,
    HAS_OUTCOME = 256,
    HAS_CHANNEL = 512,
    HAS_N3_LATER = 1024, /* a third number from format 3 on */
    HAS_ERROR = 2048
};

/* An entry before it is in the ring. */
struct entry {
    enum kind kind;
    unsigned fields;
    struct rec_process process;
    unsigned service, outcome, error;
    uint8_t priority, channel;
    int64_t numbers[3];
    const int64_t *values;
    size_t value_count;
    const char *name;
    size_t name_length;
    const uint8_t *message;
    size_t message_length;
    const uint8_t *data;
    size_t data_length;
    const struct rec_process *woken;
    size_t woken_count;
};

/* The head of an entry in the ring, as it is named and as it is stored. */
union head {
    struct {
        uint8_t kind, service, outcome, priority, channel, partition, value_count, name_length;
        uint32_t process;
        uint16_t fields, woken_count, message_length, data_length;
        uint8_t error, unused[3];
    } is;
    uint64_t words[3];
};

#define HEAD_WORDS (sizeof(union head) / sizeof(uint64_t))

/* The services: their names, and the fields that each takes. */
static const struct {
    const char *name;
    unsigned takes;
} SERVICES[REC_SERVICES] = {
#define ROW(name, takes) {#name, takes},
    REC_EACH_SERVICE(ROW)
#undef ROW
};

static const char *const OUTCOMES[REC_OUTCOMES] = {
    [REC_NO_ERROR] = "NO_ERROR",           [REC_NO_ACTION] = "NO_ACTION",       [REC_NOT_AVAILABLE] = "NOT_AVAILABLE",
    [REC_INVALID_PARAM] = "INVALID_PARAM", [REC_INVALID_CONFIG] = "INVALID_CONFIG", [REC_INVALID_MODE] = "INVALID_MODE",
    [REC_TIMED_OUT] = "TIMED_OUT",         [REC_WAIT] = "wait",                 [REC_NONE] = "none",
};

static const char *const ERRORS[REC_ERRORS] = {
    [REC_DEADLINE_MISSED] = "DEADLINE_MISSED",   [REC_APPLICATION_ERROR] = "APPLICATION_ERROR",
    [REC_NUMERIC_ERROR] = "NUMERIC_ERROR",       [REC_ILLEGAL_REQUEST] = "ILLEGAL_REQUEST",
    [REC_STACK_OVERFLOW] = "STACK_OVERFLOW",     [REC_MEMORY_VIOLATION] = "MEMORY_VIOLATION",
    [REC_HARDWARE_FAULT] = "HARDWARE_FAULT",     [REC_POWER_FAIL] = "POWER_FAIL",
};

/* Opening. */

struct recorder *rec_open(void *memory, size_t size, unsigned core, enum rec_format format)
{
    size_t skipped = (REC_CACHE_LINE - (size_t)((uintptr_t)memory % REC_CACHE_LINE)) % REC_CACHE_LINE;
    size_t own = (sizeof(struct recorder) + REC_CACHE_LINE - 1) / REC_CACHE_LINE * REC_CACHE_LINE;
    size_t capacity = LEAST_WORDS;
    struct recorder *recorder;

    if (memory == NULL || core >= REC_CORES || (format != REC_FORMAT_1 && format != REC_FORMAT_2 && format != REC_FORMAT_3))
        return NULL;
    if (size < skipped + own || (size - skipped - own) / sizeof(uint64_t) < LEAST_WORDS)
        return NULL;
    while (capacity <= (size - skipped - own) / sizeof(uint64_t) / 2)
        capacity *= 2;
    recorder = (struct recorder *)(void *)((char *)memory + skipped);
    *recorder = (struct recorder){
        .words = (uint64_t *)(void *)((char *)memory + skipped + own),
        .capacity = capacity,
        .format = format,
        .core = core,
    };
    return recorder;
}

unsigned rec_core(const struct recorder *recorder)
{
    return recorder->core;
}

size_t rec_lost(const struct recorder *recorder)
{
    return REC_LOAD_ACQUIRE(&recorder->lost);
}

/* Entries into the ring, by the core. */

static size_t words_for(size_t bytes)
{
    return (bytes + sizeof(uint64_t) - 1) / sizeof(uint64_t);
}

static size_t entry_words(const struct entry *entry)
{
    static const uint8_t NUMBERS[] = {0, 1, 1, 2, 1, 2, 2, 3};

    return HEAD_WORDS + entry->value_count + NUMBERS[entry->fields & (HAS_N1 | HAS_N2 | HAS_N3)] + words_for(entry->name_length) +
           words_for(entry->message_length) + words_for(entry->data_length) + entry->woken_count;
}

static void put_word(struct recorder *recorder, size_t *at, uint64_t word)
{
    recorder->words[(*at)++ & (recorder->capacity - 1)] = word;
}

/* Eight bytes a word, the first one lowest. Compilers make one load of the long expression where the processor has that order. */
static void put_bytes(struct recorder *recorder, size_t *at, const uint8_t *bytes, size_t length)
{
    uint64_t last = 0;

    for (; length >= 8; length -= 8, bytes += 8)
        put_word(recorder, at,
                 (uint64_t)bytes[0] | (uint64_t)bytes[1] << 8 | (uint64_t)bytes[2] << 16 | (uint64_t)bytes[3] << 24 |
                     (uint64_t)bytes[4] << 32 | (uint64_t)bytes[5] << 40 | (uint64_t)bytes[6] << 48 | (uint64_t)bytes[7] << 56);
    if (length == 0)
        return;
    while (length-- > 0)
        last = last << 8 | bytes[length];
    put_word(recorder, at, last);
}

/* Whether there is room for so many words. The tail is read only if the last one that was seen leaves too little. */
static bool has_room(struct recorder *recorder, size_t words)
{
    if (recorder->capacity - (recorder->head - recorder->last_tail) >= words)
        return true;
    recorder->last_tail = REC_LOAD_ACQUIRE(&recorder->tail);
    return recorder->capacity - (recorder->head - recorder->last_tail) >= words;
}

static bool exceeds_limits(const struct entry *entry)
{
    return entry->name_length > REC_NAME_BYTES || entry->message_length > REC_MESSAGE_BYTES ||
           entry->data_length > REC_MESSAGE_BYTES || entry->woken_count > REC_WOKEN || entry->value_count > 3 ||
           entry->service >= REC_SERVICES || entry->outcome >= REC_OUTCOMES || entry->error >= REC_ERRORS;
}

static union head head_of(const struct entry *entry)
{
    return (union head){.is = {
                            .kind = (uint8_t)entry->kind,
                            .service = (uint8_t)entry->service,
                            .outcome = (uint8_t)entry->outcome,
                            .priority = entry->priority,
                            .channel = entry->channel,
                            .partition = entry->process.partition,
                            .value_count = (uint8_t)entry->value_count,
                            .name_length = (uint8_t)entry->name_length,
                            .process = entry->process.number,
                            .fields = (uint16_t)entry->fields,
                            .woken_count = (uint16_t)entry->woken_count,
                            .message_length = (uint16_t)entry->message_length,
                            .data_length = (uint16_t)entry->data_length,
                            .error = (uint8_t)entry->error,
                        }};
}

/* Puts the words of an entry at a position, which moves past them. */
static void put_entry(struct recorder *recorder, size_t *at, const struct entry *entry)
{
    union head head = head_of(entry);
    size_t i;

    for (i = 0; i < HEAD_WORDS; i++)
        put_word(recorder, at, head.words[i]);
    for (i = 0; i < entry->value_count; i++)
        put_word(recorder, at, (uint64_t)entry->values[i]);
    for (i = 0; i < 3; i++)
        if (entry->fields & ((unsigned)HAS_N1 << i))
            put_word(recorder, at, (uint64_t)entry->numbers[i]);
    put_bytes(recorder, at, (const uint8_t *)entry->name, entry->name_length);
    put_bytes(recorder, at, entry->message, entry->message_length);
    put_bytes(recorder, at, entry->data, entry->data_length);
    for (i = 0; i < entry->woken_count; i++)
        put_word(recorder, at, (uint64_t)entry->woken[i].partition << 32 | entry->woken[i].number);
}

/* Puts an entry into the ring, with a mark before it if records are missing there. If there is no room, the record is lost. */
static void put(struct recorder *recorder, const struct entry *entry)
{
    union head mark = {.is = {.kind = LOST}};
    size_t at = recorder->head;
    bool is_marked = recorder->lost != recorder->marked;

    if (exceeds_limits(entry) || !has_room(recorder, entry_words(entry) + (is_marked ? 2U : 0U))) {
        REC_STORE_RELEASE(&recorder->lost, recorder->lost + 1);
        return;
    }
    if (is_marked) {
        put_word(recorder, &at, mark.words[0]);
        put_word(recorder, &at, recorder->lost);
        recorder->marked = recorder->lost;
    }
    put_entry(recorder, &at, entry);
    REC_STORE_RELEASE(&recorder->head, at);
}

void rec_disp(struct recorder *recorder, const struct rec_process *occupant)
{
    struct entry entry = {.kind = DISP};

    if (occupant != NULL) {
        entry.fields = HAS_PROCESS;
        entry.process = *occupant;
    }
    put(recorder, &entry);
}

void rec_tick(struct recorder *recorder, const struct rec_process *woken, size_t woken_count)
{
    struct entry entry = {.kind = TICK, .woken = woken, .woken_count = woken_count};

    put(recorder, &entry);
}

void rec_call(struct recorder *recorder, const struct rec_call *call)
{
    struct entry entry = {
        .kind = CALL,
        .fields = HAS_PROCESS | HAS_SERVICE | HAS_PRIORITY | HAS_OUTCOME | (call->has_channel ? HAS_CHANNEL : 0U),
        .process = call->caller,
        .service = (unsigned)call->service,
        .outcome = (unsigned)call->outcome,
        .priority = call->priority,
        .channel = call->channel,
        .numbers = {call->n1, call->n2, call->n3},
        .value_count = call->value_count,
        .values = call->values,
        .data = call->data,
        .data_length = call->data_length,
        .woken = call->woken,
        .woken_count = call->woken_count,
    };

    if (entry.service < REC_SERVICES)
        entry.fields |= SERVICES[entry.service].takes;
    if ((entry.fields & HAS_N3_LATER) && recorder->format >= REC_FORMAT_3)
        entry.fields |= HAS_N3;
    if ((entry.fields & HAS_NAME) && call->name != NULL) {
        entry.name = call->name;
        entry.name_length = call->name_length;
    }
    if ((entry.fields & HAS_MESSAGE) && call->message != NULL && call->n2 >= 1 && call->n2 <= REC_MESSAGE_BYTES) {
        entry.message = call->message;
        entry.message_length = (size_t)call->n2;
    }
    put(recorder, &entry);
}

void rec_ret(struct recorder *recorder, const struct rec_return *ret)
{
    struct entry entry = {
        .kind = RET,
        .fields = HAS_PROCESS | HAS_SERVICE | HAS_OUTCOME,
        .process = ret->caller,
        .service = (unsigned)ret->service,
        .outcome = (unsigned)ret->code,
        .value_count = ret->value_count,
        .values = ret->values,
        .data = ret->data,
        .data_length = ret->data_length,
    };

    put(recorder, &entry);
}

void rec_arrive(struct recorder *recorder, const struct rec_crossing *crossing)
{
    struct entry entry = {
        .kind = ARRIVE,
        .fields = HAS_CHANNEL,
        .channel = crossing->channel,
        .message = crossing->message,
        .message_length = crossing->message_length,
        .woken = crossing->woken,
        .woken_count = crossing->woken_count,
    };

    put(recorder, &entry);
}

void rec_depart(struct recorder *recorder, const struct rec_crossing *crossing)
{
    struct entry entry = {
        .kind = DEPART,
        .fields = HAS_CHANNEL,
        .channel = crossing->channel,
        .data = crossing->message,
        .data_length = crossing->message_length,
        .woken = crossing->woken,
        .woken_count = crossing->woken_count,
    };

    put(recorder, &entry);
}

void rec_error(struct recorder *recorder, struct rec_process process, enum rec_error_code error, bool restarts)
{
    struct entry entry = {.kind = ERROR,
                          .fields = HAS_PROCESS | HAS_ERROR | (restarts ? (unsigned)HAS_OUTCOME : 0U),
                          .process = process,
                          .outcome = (unsigned)REC_NONE,
                          .error = (unsigned)error};

    put(recorder, &entry);
}

/* Rows, by the drain. */

/* A text on its way to the sink. */
struct text {
    rec_sink *sink;
    void *to;
    bool is_refused;
    size_t length;
    char bytes[256];
};

static void flush(struct text *text)
{
    if (!text->is_refused && text->length > 0)
        text->is_refused = !text->sink(text->to, text->bytes, text->length);
    text->length = 0;
}

static void add(struct text *text, char byte)
{
    if (text->length == sizeof text->bytes)
        flush(text);
    text->bytes[text->length++] = byte;
}

static void add_text(struct text *text, const char *added)
{
    while (*added != '\0')
        add(text, *added++);
}

static void add_natural(struct text *text, uint64_t number)
{
    char digits[20];
    size_t count = 0;

    do {
        digits[count++] = (char)('0' + number % 10);
        number /= 10;
    } while (number > 0);
    while (count > 0)
        add(text, digits[--count]);
}

static void add_integer(struct text *text, int64_t number)
{
    if (number < 0)
        add(text, '-');
    add_natural(text, number < 0 ? 0 - (uint64_t)number : (uint64_t)number);
}

/* Where the drain is in an entry. */
struct reader {
    struct recorder *recorder;
    size_t at;
};

static uint64_t word_at(const struct reader *reader, size_t words)
{
    return reader->recorder->words[(reader->at + words) & (reader->recorder->capacity - 1)];
}

static uint64_t next_word(struct reader *reader)
{
    return reader->recorder->words[reader->at++ & (reader->recorder->capacity - 1)];
}

static uint8_t byte_at(const struct reader *reader, size_t byte)
{
    return (uint8_t)(word_at(reader, byte / sizeof(uint64_t)) >> (8 * (byte % sizeof(uint64_t))));
}

/* A name as a field: in quotes, with a quote in it doubled, if it has a character that ends a field. */
static void add_name(struct text *text, struct reader *reader, size_t length)
{
    bool is_quoted = false;
    size_t i;

    for (i = 0; i < length; i++) {
        uint8_t byte = byte_at(reader, i);
        is_quoted = is_quoted || byte == ',' || byte == '"' || byte == '\n' || byte == '\r';
    }
    if (is_quoted)
        add(text, '"');
    for (i = 0; i < length; i++) {
        uint8_t byte = byte_at(reader, i);
        if (byte == '"')
            add(text, '"');
        add(text, (char)byte);
    }
    if (is_quoted)
        add(text, '"');
    reader->at += words_for(length);
}

static void add_hexadecimal(struct text *text, struct reader *reader, size_t length)
{
    static const char DIGITS[] = "0123456789abcdef";
    uint64_t word = 0;
    size_t i;

    for (i = 0; i < length; i++) {
        word = i % sizeof word == 0 ? next_word(reader) : word >> 8;
        add(text, DIGITS[word >> 4 & 0xf]);
        add(text, DIGITS[word & 0xf]);
    }
}

/* Sorts words that are in the ring: a row names its woken processes by partition and number. They are few and mostly in order. */
static void sort_words(struct recorder *recorder, size_t from, size_t count)
{
    size_t mask = recorder->capacity - 1, i, j;

    for (i = 1; i < count; i++) {
        uint64_t moved = recorder->words[(from + i) & mask];
        for (j = i; j > 0 && recorder->words[(from + j - 1) & mask] > moved; j--)
            recorder->words[(from + j) & mask] = recorder->words[(from + j - 1) & mask];
        recorder->words[(from + j) & mask] = moved;
    }
}

static void add_woken(struct text *text, struct reader *reader, size_t count)
{
    size_t i;

    sort_words(reader->recorder, reader->at, count);
    for (i = 0; i < count; i++) {
        uint64_t word = next_word(reader);
        if (i > 0)
            add(text, ';');
        add_natural(text, word >> 32);
        add(text, ':');
        add_natural(text, word & 0xffffffff);
    }
}

static void add_commas(struct text *text, int count)
{
    while (count-- > 0)
        add(text, ',');
}

/* Begins a row: its number on this core, and its kind. */
static void begin_row(struct text *text, const struct recorder *recorder, unsigned kind)
{
    add_natural(text, recorder->rows);
    add(text, ',');
    add_text(text, KINDS[kind]);
}

/* Ends a row, and answers whether the sink has taken it all. */
static bool end_row(struct text *text, struct recorder *recorder)
{
    add(text, '\n');
    flush(text);
    if (text->is_refused)
        return false;
    recorder->rows++;
    return true;
}

static void add_natural_field(struct text *text, bool is_filled, uint64_t number)
{
    add(text, ',');
    if (is_filled)
        add_natural(text, number);
}

static void add_text_field(struct text *text, bool is_filled, const char *added)
{
    add(text, ',');
    if (is_filled)
        add_text(text, added);
}

/* Writes the next word of the entry, as a field of a number. */
static void add_next_field(struct text *text, bool is_filled, struct reader *reader)
{
    add(text, ',');
    if (is_filled)
        add_integer(text, (int64_t)next_word(reader));
}

/* Writes the row of a record, and moves the reader past its entry. Its second and third value come after the woken processes, and then its
 * error. */
static bool write_record(struct text *text, struct reader *reader)
{
    union head head;
    struct reader values;
    size_t i;

    for (i = 0; i < HEAD_WORDS; i++)
        head.words[i] = next_word(reader);
    values = *reader;
    reader->at += head.is.value_count;
    begin_row(text, reader->recorder, head.is.kind);
    add_natural_field(text, head.is.fields & HAS_PROCESS, head.is.partition);
    add_natural_field(text, head.is.fields & HAS_PROCESS, head.is.process);
    add_text_field(text, head.is.fields & HAS_SERVICE, SERVICES[head.is.service].name);
    for (i = 0; i < 3; i++)
        add_next_field(text, head.is.fields & (HAS_N1 << i), reader);
    add(text, ',');
    add_name(text, reader, head.is.name_length);
    add(text, ',');
    add_hexadecimal(text, reader, head.is.message_length);
    add_natural_field(text, head.is.fields & HAS_PRIORITY, head.is.priority);
    add_text_field(text, head.is.fields & HAS_OUTCOME, OUTCOMES[head.is.outcome]);
    add_next_field(text, head.is.value_count > 0, &values);
    add(text, ',');
    add_hexadecimal(text, reader, head.is.data_length);
    add_natural_field(text, head.is.fields & HAS_CHANNEL, head.is.channel);
    add(text, ',');
    add_woken(text, reader, head.is.woken_count);
    for (i = 1; i < 3 && reader->recorder->format >= REC_FORMAT_2; i++)
        add_next_field(text, head.is.value_count > i, &values);
    if (reader->recorder->format >= REC_FORMAT_3)
        add_text_field(text, head.is.fields & HAS_ERROR, ERRORS[head.is.error]);
    return end_row(text, reader->recorder);
}

/* Writes the row of lost records, with their number as `n1`. Its kind is that of no record, so it is refused wherever it is. */
static bool write_lost(struct text *text, struct recorder *recorder, size_t lost)
{
    begin_row(text, recorder, LOST);
    add_commas(text, 4);
    add_natural(text, lost - recorder->reported);
    add_commas(text, recorder->format == REC_FORMAT_1 ? 10 : recorder->format == REC_FORMAT_2 ? 12 : 13);
    if (!end_row(text, recorder))
        return false;
    recorder->reported = lost;
    return true;
}

/* Writes the row of the oldest entry, and gives its words back to the core. A mark of what has a row already gets no second one. */
static bool write_oldest(struct text *text, struct recorder *recorder)
{
    struct reader reader = {.recorder = recorder, .at = recorder->tail};
    union head head = {.words = {word_at(&reader, 0)}};
    bool is_written;

    if (head.is.kind == LOST) {
        size_t lost = (size_t)word_at(&reader, 1);
        is_written = lost == recorder->reported || write_lost(text, recorder, lost);
        reader.at += 2;
    } else {
        is_written = write_record(text, &reader);
    }
    if (is_written)
        REC_STORE_RELEASE(&recorder->tail, reader.at);
    return is_written;
}

/*
 * The last records may be lost with no later one in the ring to carry their mark. `lost` is read before `head`: each record that
 * was lost by then is either missing before an entry up to this head, which has a mark, or missing at this head.
 */
size_t rec_drain(struct recorder *recorder, size_t most, rec_sink *sink, void *to)
{
    size_t lost = REC_LOAD_ACQUIRE(&recorder->lost);
    size_t head = REC_LOAD_ACQUIRE(&recorder->head);
    struct text text = {.sink = sink, .to = to};
    uint64_t first = recorder->rows;

    while (recorder->tail != head && recorder->rows - first < most)
        if (!write_oldest(&text, recorder))
            break;
    if (recorder->tail == head && recorder->rows - first < most && lost != recorder->reported &&
        lost - recorder->reported <= SIZE_MAX / 2)
        write_lost(&text, recorder, lost);
    return (size_t)(recorder->rows - first);
}

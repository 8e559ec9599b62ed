/*
 * A client in C of the entry points in include/srp.h. It holds them to 01, 02 and docs/LAYOUT.md: 01's example, the search of a row,
 * previews, New label, scripts, refusals, serials, air limits, runs and rehearsals, memory of another version or damaged, and the places
 * that are free.
 *
 *     client [STEP]     damages every STEP-th byte of the memory in turn; 1 if not given
 *
 * A check that fails prints its place and the values. The last line has the number of checks; the exit status is 1 if one failed.
 */
#include "srp.h"

#include <inttypes.h>
#include <stdbool.h>
#include <stdio.h>
#include <stdlib.h>
#include <string.h>

/* ---- Checks --------------------------------------------------------------------------------- */

#define PRINTED_FAILURES 40

static struct {
    unsigned long checks;
    unsigned long failures;
} tally;

/* Whether a check that failed is printed: the first ones are. */
static bool told(bool holds)
{
    tally.checks++;
    if (holds)
        return false;
    tally.failures++;
    return tally.failures <= PRINTED_FAILURES;
}

static void check_eq(int line, const char *what, uint64_t actual, uint64_t expected)
{
    if (told(actual == expected))
        fprintf(stderr, "%s:%d: %s is %" PRIu64 " (%#" PRIx64 "), expected %" PRIu64 " (%#" PRIx64 ")\n", __FILE__, line, what, actual,
                actual, expected, expected);
}

static void check_same(int line, const char *what, const uint8_t *actual, const uint8_t *expected, size_t length)
{
    size_t at = 0;

    if (!told(memcmp(actual, expected, length) == 0))
        return;
    while (at + 1 < length && actual[at] == expected[at])
        at++;
    fprintf(stderr, "%s:%d: %s: byte %zu is %u, expected %u\n", __FILE__, line, what, at, actual[at], expected[at]);
}

#define CHECK_EQ(actual, expected) check_eq(__LINE__, #actual, (actual), (expected))
#define CHECK_SAME(actual, expected, length) check_same(__LINE__, #actual, (actual), (expected), (length))
#define CHECK_LABEL(at, s, m, d)                                                                                                         \
    do {                                                                                                                                 \
        CHECK_EQ(srp_read8((at) + SRP_LABEL_S), (s));                                                                                    \
        CHECK_EQ(srp_read4((at) + SRP_LABEL_M), (m));                                                                                    \
        CHECK_EQ(srp_read4((at) + SRP_LABEL_D), (d));                                                                                    \
    } while (0)

/* A result with an answer and a count. */
static uint64_t result(uint32_t answer, uint64_t count)
{
    return answer | count << 32;
}

/* ---- Memory --------------------------------------------------------------------------------- */

static void *allocated(size_t length)
{
    void *memory = malloc(length ? length : 1);

    if (!memory) {
        fprintf(stderr, "%s: no memory\n", __FILE__);
        exit(2);
    }
    return memory;
}

/* These bytes in a slice of their own, with nothing of ours before or behind it. */
static uint8_t *copied(const uint8_t *bytes, size_t length)
{
    return memcpy(allocated(length), bytes, length);
}

static void put(uint8_t *at, int width, uint64_t number)
{
    for (int i = 0; i < width; i++)
        at[i] = (uint8_t)(number >> 8 * i);
}

static void put_label(uint8_t *at, uint64_t s, uint32_t m, uint32_t d)
{
    put(at + SRP_LABEL_S, 8, s);
    put(at + SRP_LABEL_M, 4, m);
    put(at + SRP_LABEL_D, 4, d);
}

/* Numbers that look random, the same in every run (xorshift). */
static uint64_t next_random(uint64_t *state)
{
    *state ^= *state << 13;
    *state ^= *state >> 7;
    *state ^= *state << 17;
    return *state;
}

/* ---- Calls ---------------------------------------------------------------------------------- */

/* Every call on memory, by a number: the script's kinds 1 to 9, then these. */
enum { OPEN = 10, DRAIN, RUN, SIZE, AIR, LIMIT, LINK, LABEL, ROW, RECORD, STATION, PACKET, PREVIEW, KINDS };

/* Open has n as a, start as b, and the limit 128. A run is of one event, an Expire of a and b. */
struct call {
    int kind;
    size_t a, b;
};

static bool shows(int kind)
{
    return kind == SRP_EVENT_TRACE || kind > RUN;
}

/* The bytes that a call writes to its output slice. */
static size_t shown_bytes(int kind)
{
    switch (kind) {
    case LABEL: return SRP_LABEL_BYTES;
    case ROW: return SRP_ROW_BYTES;
    case RECORD: return SRP_RECORD_BYTES;
    case STATION: return SRP_STATION_BYTES;
    case PACKET: return SRP_PACKET_BYTES;
    case PREVIEW: return SRP_PREVIEW_BYTES;
    default: return 0;
    }
}

static uint64_t run_expire(uint8_t *memory, size_t length, size_t a, size_t t)
{
    const uint8_t kind = SRP_EVENT_EXPIRE, operands[] = {(uint8_t)a, (uint8_t)t};
    uint64_t line;

    return srp_run(memory, length, &kind, 1, operands, 2, &line, 1);
}

static uint64_t make(struct call c, uint8_t *memory, size_t length, uint8_t *out, size_t out_length)
{
    switch (c.kind) {
    case SRP_EVENT_UP: return srp_up(memory, length, c.a, c.b);
    case SRP_EVENT_DOWN: return srp_down(memory, length, c.a, c.b);
    case SRP_EVENT_SOLICIT: return srp_solicit(memory, length, c.a, c.b);
    case SRP_EVENT_GIVE_UP: return srp_give_up(memory, length, c.a);
    case SRP_EVENT_EXPIRE: return srp_expire(memory, length, c.a, c.b);
    case SRP_EVENT_DELIVER: return srp_deliver(memory, length, c.a);
    case SRP_EVENT_LOSE: return srp_lose(memory, length, c.a);
    case SRP_EVENT_DUPLICATE: return srp_duplicate(memory, length, c.a);
    case SRP_EVENT_TRACE: return srp_trace(memory, length, c.a, c.b);
    case OPEN: return srp_open(memory, length, c.a, c.b, SRP_MAX_PACKETS);
    case DRAIN: return srp_drain(memory, length);
    case RUN: return run_expire(memory, length, c.a, c.b);
    case SIZE: return srp_size(memory, length);
    case AIR: return srp_air(memory, length);
    case LIMIT: return srp_limit(memory, length);
    case LINK: return srp_link(memory, length, c.a, c.b);
    case LABEL: return srp_label(memory, length, c.a, c.b, out, out_length);
    case ROW: return srp_row(memory, length, c.a, c.b, out, out_length);
    case RECORD: return srp_record(memory, length, c.a, c.b, out, out_length);
    case STATION: return srp_station(memory, length, c.a, out, out_length);
    case PACKET: return srp_packet(memory, length, c.a, out, out_length);
    default: return srp_preview(memory, length, c.a, out, out_length);
    }
}

/* A network in a slice that is longer than the layout, an output slice, and what both held before the last call. */
#define GUARD 64
#define LENT (SRP_LENGTH + GUARD)
#define OUT 128

struct desk {
    uint8_t memory[LENT], before[LENT];
    uint8_t out[OUT], out_before[OUT];
};

static uint64_t call_on(struct desk *d, struct call c, size_t length, size_t out_length)
{
    memcpy(d->before, d->memory, LENT);
    memcpy(d->out_before, d->out, OUT);
    return make(c, d->memory, length, d->out, out_length);
}

static struct desk *opened_under(size_t n, uint64_t start, size_t limit)
{
    struct desk *d = allocated(sizeof *d);

    memset(d->memory, 0xa5, LENT);
    memset(d->out, 0x5a, OUT);
    memcpy(d->before, d->memory, LENT);
    CHECK_EQ(srp_open(d->memory, LENT, n, start, limit), SRP_DONE);
    CHECK_SAME(d->memory + SRP_LENGTH, d->before + SRP_LENGTH, GUARD);
    return d;
}

static struct desk *opened(size_t n, uint64_t start)
{
    return opened_under(n, start, SRP_MAX_PACKETS);
}

/* A call that is turned down: the number, no count, and every byte as it was. */
static void check_refused(int line, struct desk *d, struct call c, size_t length, size_t out_length, uint32_t number)
{
    check_eq(line, "the refusal", call_on(d, c, length, out_length), number);
    check_same(line, "memory", d->memory, d->before, LENT);
    check_same(line, "out", d->out, d->out_before, OUT);
}

#define CHECK_REFUSED(d, number, ...) check_refused(__LINE__, (d), (struct call){__VA_ARGS__}, LENT, OUT, (number))

/* ---- The layout, from docs/LAYOUT.md -------------------------------------------------------- */

static bool is_flag(uint8_t byte)
{
    return byte < 2;
}

static bool is_label(const uint8_t *at)
{
    uint64_t s = srp_read8(at + SRP_LABEL_S);
    uint32_t m = srp_read4(at + SRP_LABEL_M), d = srp_read4(at + SRP_LABEL_D);

    return s == 0 ? m == 1 && d == 1 : m < d;
}

static bool is_own_label(const uint8_t *at)
{
    return is_label(at) && srp_read4(at + SRP_LABEL_M) == 0 && srp_read4(at + SRP_LABEL_D) == 1;
}

static bool is_row(const uint8_t *row, unsigned n, unsigned i)
{
    const uint8_t *entries = row + SRP_ROW_ENTRIES;

    if (row[SRP_ROW_COUNT] > SRP_MAX_SUCCESSORS)
        return false;
    for (unsigned k = 0; k < row[SRP_ROW_COUNT]; k++) {
        uint8_t station = entries[SRP_ENTRY_BYTES * k + SRP_ENTRY_STATION];

        if (station >= n || station == i || !is_label(entries + SRP_ENTRY_BYTES * k + SRP_ENTRY_LABEL))
            return false;
        for (unsigned j = 0; j < k; j++)
            if (entries[SRP_ENTRY_BYTES * j + SRP_ENTRY_STATION] == station)
                return false;
    }
    return true;
}

static bool is_record(const uint8_t *at, unsigned n)
{
    return at[SRP_RECORD_DESTINATION] < n && at[SRP_RECORD_LAST_HOP] < n && is_label(at + SRP_RECORD_CACHED) && is_flag(at[SRP_RECORD_PASSED]);
}

static bool is_packet(const uint8_t *at, unsigned n)
{
    static const uint8_t zeros[SRP_PACKET_BYTES];
    unsigned mask = srp_read2(at + SRP_PACKET_MASK);

    if (at[SRP_PACKET_SENDER] >= n || at[SRP_PACKET_RECEIVER] >= n || at[SRP_PACKET_SENDER] == at[SRP_PACKET_RECEIVER])
        return false;
    if (at[SRP_PACKET_KIND] == SRP_ERROR)
        return mask >> n == 0 && memcmp(at + SRP_PACKET_SOURCE, zeros, SRP_PACKET_MASK - SRP_PACKET_SOURCE) == 0;
    if (at[SRP_PACKET_KIND] != SRP_REQUEST && at[SRP_PACKET_KIND] != SRP_REPLY)
        return false;
    if (!is_flag(at[SRP_PACKET_RESET]) || (at[SRP_PACKET_KIND] == SRP_REPLY && at[SRP_PACKET_RESET]))
        return false;
    return at[SRP_PACKET_SOURCE] < n && srp_read4(at + SRP_PACKET_NUMBER) > 0 && at[SRP_PACKET_DESTINATION] < n
        && is_label(at + SRP_PACKET_LABEL) && mask == 0;
}

/* What station i holds for station t: label, row, record and link. */
static bool is_pair(const uint8_t *bytes, unsigned n, unsigned i, unsigned t)
{
    const uint8_t *row = bytes + SRP_ROW_AT(i, t);

    if (i == t)
        return is_own_label(bytes + SRP_LABEL_AT(i, t)) && row[SRP_ROW_COUNT] == 0;
    if (i < t && !is_flag(bytes[SRP_LINK_AT(i, t)]))
        return false;
    return is_label(bytes + SRP_LABEL_AT(i, t)) && is_row(row, n, i) && is_record(bytes + SRP_RECORD_AT(i, t), n);
}

/* Whether bytes have a meaning and are memory in range. */
static bool in_range(const uint8_t *bytes)
{
    unsigned n = bytes[SRP_N_AT], air = bytes[SRP_AIR_AT], limit = bytes[SRP_LIMIT_AT];

    if (bytes[SRP_VERSION_AT] != SRP_VERSION || n < SRP_MIN_STATIONS || n > SRP_MAX_STATIONS)
        return false;
    if (limit > SRP_MAX_PACKETS || air > limit)
        return false;
    for (unsigned i = 0; i < n; i++) {
        const uint8_t *station = bytes + SRP_STATION_AT(i);

        if (station[SRP_STATION_SOUGHT] >= n || !is_flag(station[SRP_STATION_ACTIVE]))
            return false;
        for (unsigned t = 0; t < n; t++)
            if (!is_pair(bytes, n, i, t))
                return false;
    }
    for (unsigned k = 0; k < air; k++)
        if (!is_packet(bytes + SRP_PACKET_AT(k), n))
            return false;
    return true;
}

/* For each byte of memory in range: in use, past a count, or of no station. */
enum { IN_USE, PAST, OF_NO_STATION };

static void mark_row(const uint8_t *bytes, uint8_t *map, unsigned i, unsigned t)
{
    unsigned count = bytes[SRP_ROW_AT(i, t) + SRP_ROW_COUNT];

    memset(map + SRP_ROW_AT(i, t) + SRP_ROW_ENTRIES + SRP_ENTRY_BYTES * count, PAST, SRP_ENTRY_BYTES * (SRP_MAX_SUCCESSORS - count));
}

static void mark_pair(const uint8_t *bytes, uint8_t *map, unsigned i, unsigned t)
{
    unsigned n = bytes[SRP_N_AT];
    bool stations = i < n && t < n;

    if (!stations || i >= t)
        map[SRP_LINK_AT(i, t)] = OF_NO_STATION;
    if (!stations || i == t)
        memset(map + SRP_RECORD_AT(i, t), OF_NO_STATION, SRP_RECORD_BYTES);
    if (stations) {
        mark_row(bytes, map, i, t);
        return;
    }
    memset(map + SRP_LABEL_AT(i, t), OF_NO_STATION, SRP_LABEL_BYTES);
    memset(map + SRP_ROW_AT(i, t), OF_NO_STATION, SRP_ROW_BYTES);
}

static void mark(const uint8_t *bytes, uint8_t *map)
{
    unsigned n = bytes[SRP_N_AT], air = bytes[SRP_AIR_AT];

    memset(map, IN_USE, SRP_LENGTH);
    for (unsigned i = 0; i < SRP_MAX_STATIONS; i++) {
        if (i >= n)
            memset(map + SRP_STATION_AT(i), OF_NO_STATION, SRP_STATION_BYTES);
        for (unsigned t = 0; t < SRP_MAX_STATIONS; t++)
            mark_pair(bytes, map, i, t);
    }
    memset(map + SRP_PACKET_AT(air), PAST, SRP_PACKET_BYTES * (SRP_MAX_PACKETS - air));
}

/* What a call writes back: zeros past each count, and flags that are 0 unless they were 1. */
static void settle(uint8_t *bytes)
{
    unsigned air = bytes[SRP_AIR_AT];

    for (unsigned i = 0; i < SRP_MAX_STATIONS; i++) {
        uint8_t *active = bytes + SRP_STATION_AT(i) + SRP_STATION_ACTIVE;

        *active = *active == 1;
    }
    for (unsigned place = 0; place < SRP_PLACE(SRP_MAX_STATIONS, 0); place++) {
        uint8_t *row = bytes + SRP_ROW_AT(0, place);
        uint8_t *passed = bytes + SRP_RECORD_AT(0, place) + SRP_RECORD_PASSED;

        bytes[SRP_LINKS_AT + place] = bytes[SRP_LINKS_AT + place] == 1;
        *passed = *passed == 1;
        for (unsigned k = row[SRP_ROW_COUNT]; k < SRP_MAX_SUCCESSORS; k++)
            memset(row + SRP_ROW_ENTRIES + SRP_ENTRY_BYTES * k, 0, SRP_ENTRY_BYTES);
    }
    if (air < SRP_MAX_PACKETS)
        memset(bytes + SRP_PACKET_AT(air), 0, SRP_PACKET_BYTES * (SRP_MAX_PACKETS - air));
}

/* The bytes of a fresh network. */
static void fresh(uint8_t *bytes, unsigned n, uint64_t start, unsigned limit)
{
    memset(bytes, 0, SRP_LENGTH);
    bytes[SRP_VERSION_AT] = SRP_VERSION;
    bytes[SRP_N_AT] = (uint8_t)n;
    bytes[SRP_LIMIT_AT] = (uint8_t)limit;
    for (unsigned place = 0; place < SRP_PLACE(SRP_MAX_STATIONS, 0); place++) {
        put_label(bytes + SRP_LABEL_AT(0, place), 0, 1, 1);
        put_label(bytes + SRP_RECORD_AT(0, place) + SRP_RECORD_CACHED, 0, 1, 1);
    }
    for (unsigned i = 0; i < n; i++)
        put_label(bytes + SRP_LABEL_AT(i, i), start, 0, 1);
}

/* What an accepted call leaves: memory in range with nothing in its free places, and the bytes past the layout. */
static void check_left(int line, struct desk *d)
{
    uint8_t *settled = copied(d->memory, SRP_LENGTH);

    settle(settled);
    check_eq(line, "in range", in_range(d->memory), true);
    check_eq(line, "srp_size", srp_size(d->memory, SRP_LENGTH), result(SRP_DONE, d->memory[SRP_N_AT]));
    check_same(line, "free places", d->memory, settled, SRP_LENGTH);
    check_same(line, "bytes past the layout", d->memory + SRP_LENGTH, d->before + SRP_LENGTH, GUARD);
    free(settled);
}

/* ---- Lists of calls ------------------------------------------------------------------------- */

/* A call with its answer, its count (packets sent; hops of a Trace) and the packets in the air after it. */
struct step {
    struct call call;
    uint32_t answer, count, air;
};

static void play(struct desk *d, const struct step *steps, size_t from, size_t to)
{
    for (size_t k = from; k < to; k++) {
        unsigned long failures = tally.failures;

        CHECK_EQ(call_on(d, steps[k].call, LENT, OUT), result(steps[k].answer, steps[k].count));
        CHECK_EQ(srp_air(d->memory, LENT), result(SRP_DONE, steps[k].air));
        if (shows(steps[k].call.kind))
            CHECK_SAME(d->memory, d->before, LENT);
        check_left(__LINE__, d);
        if (tally.failures != failures)
            fprintf(stderr, "    at step %zu\n", k);
    }
}

/* 01's example, as it is printed there. */
#define EXAMPLE 9
static const struct step example[EXAMPLE] = {
    {{SRP_EVENT_UP, 0, 1}, 0, 0, 0},
    {{SRP_EVENT_UP, 1, 2}, 0, 0, 0},
    {{SRP_EVENT_SOLICIT, 2, 0}, 0, 1, 1},
    {{SRP_EVENT_DELIVER, 0, 0}, 103, 2, 2},
    {{SRP_EVENT_DELIVER, 0, 0}, 102, 1, 2},
    {{SRP_EVENT_LOSE, 0, 0}, 0, 0, 1},
    {{SRP_EVENT_DELIVER, 0, 0}, 115, 1, 1},
    {{SRP_EVENT_DELIVER, 0, 0}, 115, 0, 0},
    {{SRP_EVENT_TRACE, 2, 0}, 131, 2, 0},
};

static struct desk *example_under(size_t steps, size_t limit)
{
    struct desk *d = opened_under(3, 1, limit);

    play(d, example, 0, steps);
    return d;
}

static struct desk *example_after(size_t steps)
{
    return example_under(steps, SRP_MAX_PACKETS);
}

/*
 * Four stations in a square, 0 to 1 and 2, and these to 3. Station 3 gets two successors for 0. Then the link of 0 and 1 goes down, and the
 * air holds an error, three requests and a reply; 2 and 3 are active.
 */
#define SQUARE 21
static const struct step square[SQUARE] = {
    {{SRP_EVENT_UP, 0, 1}, 0, 0, 0},
    {{SRP_EVENT_UP, 0, 2}, 0, 0, 0},
    {{SRP_EVENT_UP, 3, 1}, 0, 0, 0},
    {{SRP_EVENT_UP, 2, 3}, 0, 0, 0},
    {{SRP_EVENT_SOLICIT, 1, 0}, 0, 2, 2},
    {{SRP_EVENT_DELIVER, 0, 0}, 102, 1, 2},
    {{SRP_EVENT_LOSE, 0, 0}, 0, 0, 1},
    {{SRP_EVENT_DELIVER, 0, 0}, 115, 0, 0},
    {{SRP_EVENT_SOLICIT, 2, 0}, 0, 2, 2},
    {{SRP_EVENT_DELIVER, 0, 0}, 102, 1, 2},
    {{SRP_EVENT_LOSE, 0, 0}, 0, 0, 1},
    {{SRP_EVENT_DELIVER, 0, 0}, 115, 0, 0},
    {{SRP_EVENT_SOLICIT, 3, 0}, 0, 2, 2},
    {{SRP_EVENT_DELIVER, 0, 0}, 102, 1, 2},
    {{SRP_EVENT_DELIVER, 0, 0}, 102, 1, 2},
    {{SRP_EVENT_DELIVER, 0, 0}, 115, 0, 1},
    {{SRP_EVENT_DELIVER, 0, 0}, 115, 0, 0},
    {{SRP_EVENT_DOWN, 0, 1}, 0, 1, 1},
    {{SRP_EVENT_SOLICIT, 2, 1}, 0, 2, 3},
    {{SRP_EVENT_SOLICIT, 3, 2}, 0, 2, 5},
    {{SRP_EVENT_DELIVER, 4, 0}, 102, 1, 5},
};

static struct desk *square_after(size_t steps)
{
    struct desk *d = opened(4, 1);

    play(d, square, 0, steps);
    return d;
}

/* ---- 01's example --------------------------------------------------------------------------- */

/* What the calls show is what stands in the bytes. */
static void check_bytes_shown(struct desk *d, struct call c, size_t at)
{
    size_t bytes = shown_bytes(c.kind);

    memset(d->out, 0x5a, OUT);
    CHECK_EQ(call_on(d, c, LENT, OUT), result(SRP_DONE, bytes));
    CHECK_SAME(d->out, d->memory + at, bytes);
    CHECK_SAME(d->out + bytes, d->out_before + bytes, OUT - bytes);
    CHECK_SAME(d->memory, d->before, LENT);
}

static void check_pair_shown(struct desk *d, unsigned i, unsigned t)
{
    check_bytes_shown(d, (struct call){LABEL, i, t}, SRP_LABEL_AT(i, t));
    check_bytes_shown(d, (struct call){ROW, i, t}, SRP_ROW_AT(i, t));
    if (i == t)
        return;
    check_bytes_shown(d, (struct call){RECORD, i, t}, SRP_RECORD_AT(i, t));
    CHECK_EQ(srp_link(d->memory, LENT, i, t), result(SRP_DONE, d->memory[i < t ? SRP_LINK_AT(i, t) : SRP_LINK_AT(t, i)]));
}

static void check_shown(struct desk *d)
{
    unsigned n = d->memory[SRP_N_AT], air = d->memory[SRP_AIR_AT];

    CHECK_EQ(srp_size(d->memory, LENT), result(SRP_DONE, n));
    CHECK_EQ(srp_air(d->memory, LENT), result(SRP_DONE, air));
    CHECK_EQ(srp_limit(d->memory, LENT), result(SRP_DONE, d->memory[SRP_LIMIT_AT]));
    for (unsigned i = 0; i < n; i++) {
        check_bytes_shown(d, (struct call){STATION, i, 0}, SRP_STATION_AT(i));
        for (unsigned t = 0; t < n; t++)
            check_pair_shown(d, i, t);
    }
    for (unsigned k = 0; k < air; k++)
        check_bytes_shown(d, (struct call){PACKET, k, 0}, SRP_PACKET_AT(k));
}

/* A request or a reply of the example: station 2 seeks 0 with its first request. */
#define CHECK_PACKET(d, k, sender, receiver, kind, s, m, denominator, serial)                                                            \
    do {                                                                                                                                 \
        CHECK_EQ(srp_packet((d)->memory, LENT, (k), (d)->out, OUT), result(SRP_DONE, SRP_PACKET_BYTES));                                 \
        CHECK_EQ((d)->out[SRP_PACKET_SENDER], (sender));                                                                                 \
        CHECK_EQ((d)->out[SRP_PACKET_RECEIVER], (receiver));                                                                             \
        CHECK_EQ((d)->out[SRP_PACKET_KIND], (kind));                                                                                     \
        CHECK_EQ((d)->out[SRP_PACKET_SOURCE], 2);                                                                                        \
        CHECK_EQ(srp_read4((d)->out + SRP_PACKET_NUMBER), 1);                                                                            \
        CHECK_EQ((d)->out[SRP_PACKET_DESTINATION], 0);                                                                                   \
        CHECK_LABEL((d)->out + SRP_PACKET_LABEL, (s), (m), (denominator));                                                               \
        CHECK_EQ((d)->out[SRP_PACKET_RESET], 0);                                                                                         \
        CHECK_EQ(srp_read2((d)->out + SRP_PACKET_MASK), 0);                                                                              \
        CHECK_EQ(srp_read8((d)->out + SRP_PACKET_SERIAL), (serial));                                                                     \
    } while (0)

/* A record for source 2 of the example. */
#define CHECK_RECORD(d, i, number, last_hop, passed)                                                                                     \
    do {                                                                                                                                 \
        CHECK_EQ(srp_record((d)->memory, LENT, (i), 2, (d)->out, OUT), result(SRP_DONE, SRP_RECORD_BYTES));                              \
        CHECK_EQ(srp_read4((d)->out + SRP_RECORD_NUMBER), (number));                                                                     \
        CHECK_EQ((d)->out[SRP_RECORD_DESTINATION], 0);                                                                                   \
        CHECK_LABEL((d)->out + SRP_RECORD_CACHED, 0, 1, 1);                                                                              \
        CHECK_EQ((d)->out[SRP_RECORD_LAST_HOP], (last_hop));                                                                             \
        CHECK_EQ((d)->out[SRP_RECORD_PASSED], (passed));                                                                                 \
    } while (0)

#define CHECK_STATION(d, i, number, sought, active, serial)                                                                              \
    do {                                                                                                                                 \
        CHECK_EQ(srp_station((d)->memory, LENT, (i), (d)->out, OUT), result(SRP_DONE, SRP_STATION_BYTES));                               \
        CHECK_EQ(srp_read4((d)->out + SRP_STATION_NUMBER), (number));                                                                    \
        CHECK_EQ((d)->out[SRP_STATION_SOUGHT], (sought));                                                                                \
        CHECK_EQ((d)->out[SRP_STATION_ACTIVE], (active));                                                                                \
        CHECK_EQ(srp_read8((d)->out + SRP_STATION_SERIAL), (serial));                                                                    \
    } while (0)

/* A station's label for 0, and its row: one successor with the label that it advertised and its reply's serial. */
#define CHECK_ROUTE(d, i, m, denominator, successor, advertised_m, advertised_d, serial)                                                 \
    do {                                                                                                                                 \
        CHECK_EQ(srp_label((d)->memory, LENT, (i), 0, (d)->out, OUT), result(SRP_DONE, SRP_LABEL_BYTES));                                \
        CHECK_LABEL((d)->out, 1, (m), (denominator));                                                                                    \
        CHECK_EQ(srp_row((d)->memory, LENT, (i), 0, (d)->out, OUT), result(SRP_DONE, SRP_ROW_BYTES));                                    \
        CHECK_EQ((d)->out[SRP_ROW_COUNT], 1);                                                                                            \
        CHECK_EQ((d)->out[SRP_ROW_ENTRIES + SRP_ENTRY_STATION], (successor));                                                            \
        CHECK_LABEL((d)->out + SRP_ROW_ENTRIES + SRP_ENTRY_LABEL, 1, (advertised_m), (advertised_d));                                    \
        CHECK_EQ(srp_read8((d)->out + SRP_ROW_ENTRIES + SRP_ENTRY_SERIAL), (serial));                                                    \
    } while (0)

/* What the example has of links after its first two events. */
static void check_example_links(struct desk *d)
{
    CHECK_EQ(srp_link(d->memory, LENT, 0, 1), result(SRP_DONE, 1));
    CHECK_EQ(srp_link(d->memory, LENT, 1, 0), result(SRP_DONE, 1));
    CHECK_EQ(srp_link(d->memory, LENT, 2, 1), result(SRP_DONE, 1));
    CHECK_EQ(srp_link(d->memory, LENT, 0, 2), result(SRP_DONE, 0));
    CHECK_EQ(srp_link(d->memory, LENT, 2, 0), result(SRP_DONE, 0));
}

static void check_example_end(struct desk *d)
{
    CHECK_ROUTE(d, 1, 1, 2, 0, 0, 1, 1);
    CHECK_ROUTE(d, 2, 2, 3, 1, 1, 2, 2);
    CHECK_STATION(d, 0, 0, 0, 0, 1);
    CHECK_STATION(d, 1, 0, 0, 0, 2);
    CHECK_STATION(d, 2, 1, 0, 0, 1);
    CHECK_EQ(srp_label(d->memory, LENT, 0, 0, d->out, OUT), result(SRP_DONE, SRP_LABEL_BYTES));
    CHECK_LABEL(d->out, 1, 0, 1);
    CHECK_EQ(srp_label(d->memory, LENT, 0, 2, d->out, OUT), result(SRP_DONE, SRP_LABEL_BYTES));
    CHECK_LABEL(d->out, 0, 1, 1);
    CHECK_EQ(srp_row(d->memory, LENT, 0, 2, d->out, OUT), result(SRP_DONE, SRP_ROW_BYTES));
    CHECK_EQ(d->out[SRP_ROW_COUNT], 0);
    CHECK_EQ(srp_trace(d->memory, LENT, 1, 0), result(SRP_TRACE_ARRIVED, 1));
    CHECK_EQ(srp_trace(d->memory, LENT, 0, 2), result(SRP_TRACE_NO_SUCCESSOR, 0));
}

static void test_example(void)
{
    struct desk *d = opened(3, 1);

    CHECK_EQ(srp_size(d->memory, LENT), result(SRP_DONE, 3));
    CHECK_EQ(srp_air(d->memory, LENT), result(SRP_DONE, 0));
    CHECK_EQ(srp_link(d->memory, LENT, 0, 1), result(SRP_DONE, 0));
    CHECK_STATION(d, 2, 0, 0, 0, 0);
    CHECK_RECORD(d, 1, 0, 0, 0);
    play(d, example, 0, 3);
    check_example_links(d);
    CHECK_STATION(d, 2, 1, 0, 1, 1);
    CHECK_PACKET(d, 0, 2, 1, SRP_REQUEST, 0, 1, 1, 1);
    play(d, example, 3, 4);
    CHECK_RECORD(d, 1, 1, 2, 0);
    CHECK_PACKET(d, 0, 1, 0, SRP_REQUEST, 0, 1, 1, 1);
    CHECK_PACKET(d, 1, 1, 2, SRP_REQUEST, 0, 1, 1, 1);
    play(d, example, 4, 5);
    CHECK_RECORD(d, 0, 1, 1, 1);
    CHECK_PACKET(d, 0, 1, 2, SRP_REQUEST, 0, 1, 1, 1);
    CHECK_PACKET(d, 1, 0, 1, SRP_REPLY, 1, 0, 1, 1);
    play(d, example, 5, 7);
    CHECK_RECORD(d, 1, 1, 2, 1);
    CHECK_PACKET(d, 0, 1, 2, SRP_REPLY, 1, 1, 2, 2);
    play(d, example, 7, EXAMPLE);
    check_example_end(d);
    check_shown(d);
    free(d);
}

/* The same in a slice of exactly the layout's length: the same bytes. */
static void test_exact_slice(void)
{
    struct desk *d = example_after(EXAMPLE);
    uint8_t *memory = allocated(SRP_LENGTH);

    CHECK_EQ(srp_open(memory, SRP_LENGTH, 3, 1, SRP_MAX_PACKETS), SRP_DONE);
    for (size_t k = 0; k < EXAMPLE; k++)
        CHECK_EQ(make(example[k].call, memory, SRP_LENGTH, d->out, OUT), result(example[k].answer, example[k].count));
    CHECK_SAME(memory, d->memory, SRP_LENGTH);
    free(memory);
    free(d);
}

/* The square: two successors, and packets of every kind in the air. */
static void test_square(void)
{
    struct desk *d = square_after(17);

    check_shown(d);
    CHECK_EQ(srp_row(d->memory, LENT, 3, 0, d->out, OUT), result(SRP_DONE, SRP_ROW_BYTES));
    CHECK_EQ(d->out[SRP_ROW_COUNT], 2);
    CHECK_EQ(d->out[SRP_ROW_ENTRIES + SRP_ENTRY_STATION], 1);
    CHECK_EQ(d->out[SRP_ROW_ENTRIES + SRP_ENTRY_BYTES + SRP_ENTRY_STATION], 2);
    CHECK_LABEL(d->out + SRP_ROW_ENTRIES + SRP_ENTRY_BYTES + SRP_ENTRY_LABEL, 1, 1, 2);
    play(d, square, 17, SQUARE);
    check_shown(d);
    CHECK_EQ(srp_packet(d->memory, LENT, 0, d->out, OUT), result(SRP_DONE, SRP_PACKET_BYTES));
    CHECK_EQ(d->out[SRP_PACKET_SENDER], 1);
    CHECK_EQ(d->out[SRP_PACKET_RECEIVER], 3);
    CHECK_EQ(d->out[SRP_PACKET_KIND], SRP_ERROR);
    CHECK_EQ(srp_read2(d->out + SRP_PACKET_MASK), 1);
    CHECK_EQ(d->memory[SRP_PACKET_AT(1) + SRP_PACKET_KIND], SRP_REQUEST);
    CHECK_EQ(d->memory[SRP_PACKET_AT(4) + SRP_PACKET_KIND], SRP_REPLY);
    free(d);
}

/* What srp_find gives of a station that it found at a place, or did not find. */
static uint64_t found(unsigned place)
{
    return result(SRP_DONE, place + 65536 * (place + 1));
}

static uint64_t not_found(unsigned count)
{
    return result(SRP_DONE, count + 65536 * count);
}

/* Station 3's row for 0 in the square has 1 and then 2. */
static void test_find_shown(void)
{
    struct desk *d = square_after(17);

    CHECK_EQ(srp_row(d->memory, LENT, 3, 0, d->out, OUT), result(SRP_DONE, SRP_ROW_BYTES));
    CHECK_EQ(srp_find(d->out, SRP_ROW_BYTES, 1), found(0));
    CHECK_EQ(srp_find(d->out, SRP_ROW_BYTES, 2), found(1));
    CHECK_EQ(SRP_FOUND_AT(srp_find(d->out, SRP_ROW_BYTES, 2)), 1);
    CHECK_EQ(SRP_LOOKED_AT(srp_find(d->out, SRP_ROW_BYTES, 2)), 2);
    CHECK_EQ(srp_find(d->out, OUT, 0), not_found(2)); /* the entries past the count are zeros and are not looked at */
    CHECK_EQ(srp_find(d->out, SRP_ROW_BYTES, 15), not_found(2));
    free(d);
}

/* A row that names a station twice, one entry after the other left out; and what is no row or no station. */
static void test_find(void)
{
    static const uint8_t stations[SRP_MAX_SUCCESSORS] = {5, 9, 5, 15};
    uint8_t *row = allocated(SRP_ROW_BYTES); /* no byte more, so that a read past it is seen */

    memset(row, 0xa5, SRP_ROW_BYTES);
    for (unsigned e = 0; e < SRP_MAX_SUCCESSORS; e++)
        row[SRP_ROW_ENTRIES + SRP_ENTRY_BYTES * e + SRP_ENTRY_STATION] = stations[e];
    for (unsigned count = 0; count <= SRP_MAX_SUCCESSORS; count++) {
        row[SRP_ROW_COUNT] = (uint8_t)count;
        CHECK_EQ(srp_find(row, SRP_ROW_BYTES, 5), count > 0 ? found(0) : not_found(count));
        CHECK_EQ(srp_find(row, SRP_ROW_BYTES, 9), count > 1 ? found(1) : not_found(count));
        CHECK_EQ(srp_find(row, SRP_ROW_BYTES, 15), count > 3 ? found(3) : not_found(count));
        CHECK_EQ(srp_find(row, SRP_ROW_BYTES, 0), not_found(count));
        CHECK_EQ(srp_find(row, SRP_ROW_BYTES, SRP_MAX_STATIONS), SRP_NO_STATION);
        CHECK_EQ(srp_find(row, SRP_ROW_BYTES, 5 + 256), SRP_NO_STATION);
        CHECK_EQ(srp_find(row, SRP_ROW_BYTES - 1, SIZE_MAX), SRP_OUT_OF_RANGE);
        CHECK_EQ(srp_find(row, 0, 5), SRP_OUT_OF_RANGE);
    }
    for (unsigned count = SRP_MAX_SUCCESSORS + 1; count < 256; count++) {
        row[SRP_ROW_COUNT] = (uint8_t)count;
        CHECK_EQ(srp_find(row, SRP_ROW_BYTES, 5), SRP_OUT_OF_RANGE);
    }
    free(row);
}

/* Give up, Expire, Duplicate, and an error that is delivered. */
static void test_other_calls(void)
{
    static const struct step steps[] = {
        {{SRP_EVENT_GIVE_UP, 3, 0}, 0, 0, 5},
        {{SRP_EVENT_DUPLICATE, 0, 0}, 0, 0, 6},
        {{SRP_EVENT_DELIVER, 0, 0}, 122, 0, 5}, /* 3 has another successor */
        {{SRP_EVENT_DELIVER, 4, 0}, 121, 0, 4}, /* the copy finds nothing to remove */
        {{SRP_EVENT_TRACE, 3, 0}, 131, 2, 4},
        {{SRP_EVENT_EXPIRE, 3, 0}, 0, 0, 4},
        {{SRP_EVENT_TRACE, 3, 0}, 132, 0, 4},
        {{SRP_EVENT_DELIVER, 3, 0}, 115, 0, 3}, /* a reply after giving up: it is taken */
        {{SRP_EVENT_TRACE, 3, 2}, 131, 1, 3},
    };
    struct desk *d = square_after(SQUARE);

    play(d, steps, 0, sizeof steps / sizeof *steps);
    check_shown(d);
    free(d);
}

/* Fresh memory, whatever the slice held before; and a slice that nothing was ever written to. */
static void test_open(void)
{
    uint8_t *wanted = allocated(SRP_LENGTH);
    uint8_t *memory = allocated(SRP_LENGTH);

    CHECK_EQ(srp_open(memory, SRP_LENGTH, 2, 1, SRP_MAX_PACKETS), SRP_DONE);
    fresh(wanted, 2, 1, SRP_MAX_PACKETS);
    CHECK_SAME(memory, wanted, SRP_LENGTH);
    for (unsigned n = SRP_MIN_STATIONS; n <= SRP_MAX_STATIONS; n++) {
        uint64_t start = n % 2 ? UINT64_MAX : 0x0123456789abcdefu;
        struct desk *d = opened(n, start);

        fresh(wanted, n, start, SRP_MAX_PACKETS);
        CHECK_SAME(d->memory, wanted, SRP_LENGTH);
        check_left(__LINE__, d);
        if (n == 2 || n == SRP_MAX_STATIONS)
            check_shown(d);
        free(d);
    }
    free(memory);
    free(wanted);
}

/* Answers that no list of calls here reaches: bytes are written by hand. */
static void test_hand_written(void)
{
    struct desk *d = example_after(EXAMPLE);

    /* A circle, 2 to 1 to 2. */
    d->memory[SRP_ROW_AT(1, 0) + SRP_ROW_ENTRIES + SRP_ENTRY_STATION] = 2;
    CHECK_EQ(srp_trace(d->memory, LENT, 2, 0), result(SRP_TRACE_ENDLESS, 2));
    free(d);

    /* A reply where the cached label is not above it. */
    d = example_after(6);
    put_label(d->memory + SRP_RECORD_AT(1, 2) + SRP_RECORD_CACHED, 1, 0, 1);
    CHECK_EQ(call_on(d, (struct call){SRP_EVENT_DELIVER, 0, 0}, LENT, OUT), result(SRP_CACHED_NOT_ABOVE, 0));
    check_left(__LINE__, d);
    free(d);

    /* A request with the reset bit: the sequence number rises, or cannot. */
    d = example_after(4);
    d->memory[SRP_PACKET_AT(0) + SRP_PACKET_RESET] = 1;
    put_label(d->memory + SRP_PACKET_AT(0) + SRP_PACKET_LABEL, UINT64_MAX - 1, 0, 1);
    CHECK_EQ(call_on(d, (struct call){SRP_EVENT_DELIVER, 0, 0}, LENT, OUT), result(SRP_REQUEST_ANSWERED, 1));
    CHECK_LABEL(d->memory + SRP_LABEL_AT(0, 0), UINT64_MAX, 0, 1);
    CHECK_PACKET(d, 1, 0, 1, SRP_REPLY, UINT64_MAX, 0, 1, 1);
    free(d);
    d = example_after(4);
    d->memory[SRP_PACKET_AT(0) + SRP_PACKET_RESET] = 1;
    put_label(d->memory + SRP_PACKET_AT(0) + SRP_PACKET_LABEL, UINT64_MAX, 0, 1);
    CHECK_EQ(call_on(d, (struct call){SRP_EVENT_DELIVER, 0, 0}, LENT, OUT), result(SRP_REQUEST_NOT_ANSWERED, 0));
    CHECK_LABEL(d->memory + SRP_LABEL_AT(0, 0), 1, 0, 1);
    CHECK_LABEL(d->memory + SRP_RECORD_AT(0, 2) + SRP_RECORD_CACHED, UINT64_MAX, 0, 1);
    CHECK_EQ(d->memory[SRP_RECORD_AT(0, 2) + SRP_RECORD_PASSED], 0);
    check_left(__LINE__, d);
    free(d);
}

/* A reply that is taken: another successor stays where the new label, here (2, 1/2), is above its stored one, and leaves where not. */
static void check_other_successor(uint64_t stored_s, unsigned left)
{
    struct desk *d = example_after(7);
    uint8_t *row = d->memory + SRP_ROW_AT(2, 0);
    uint8_t *last = row + SRP_ROW_ENTRIES + SRP_ENTRY_BYTES * left;

    put_label(d->memory + SRP_LABEL_AT(2, 0), 1, 2, 3);
    row[SRP_ROW_COUNT] = 1;
    row[SRP_ROW_ENTRIES + SRP_ENTRY_STATION] = 0;
    put_label(row + SRP_ROW_ENTRIES + SRP_ENTRY_LABEL, stored_s, 0, 1);
    put_label(d->memory + SRP_PACKET_AT(0) + SRP_PACKET_LABEL, 2, 0, 1);
    CHECK_EQ(call_on(d, (struct call){SRP_EVENT_DELIVER, 0, 0}, LENT, OUT), result(SRP_REPLY_TAKEN, 0));
    CHECK_LABEL(d->memory + SRP_LABEL_AT(2, 0), 2, 1, 2);
    CHECK_EQ(row[SRP_ROW_COUNT], left + 1);
    CHECK_EQ(last[SRP_ENTRY_STATION], 1);
    CHECK_LABEL(last + SRP_ENTRY_LABEL, 2, 0, 1);
    check_left(__LINE__, d);
    free(d);
}

static void test_other_successors(void)
{
    check_other_successor(1, 0);
    check_other_successor(3, 1);
}

/* ---- Previews ------------------------------------------------------------------------------- */

/* The mask of station i's rows that are not empty before and are empty after. */
static unsigned emptied(const uint8_t *before, const uint8_t *after, unsigned i)
{
    unsigned mask = 0;

    for (unsigned t = 0; t < before[SRP_N_AT]; t++)
        if (before[SRP_ROW_AT(i, t) + SRP_ROW_COUNT] && !after[SRP_ROW_AT(i, t) + SRP_ROW_COUNT])
            mask |= 1u << t;
    return mask;
}

/* What a preview of packet k is to show, from the network before the packet was delivered and after. */
static void put_preview(uint8_t *at, const uint8_t *before, const uint8_t *after, size_t k)
{
    const uint8_t *packet = before + SRP_PACKET_AT(k);
    unsigned i = packet[SRP_PACKET_RECEIVER], t = packet[SRP_PACKET_DESTINATION];

    memset(at, 0, SRP_PREVIEW_BYTES);
    if (packet[SRP_PACKET_KIND] == SRP_ERROR) {
        put(at + SRP_PREVIEW_MASK, 2, emptied(before, after, i));
        return;
    }
    CHECK_EQ(srp_label(after, LENT, i, t, at + SRP_PREVIEW_LABEL, SRP_LABEL_BYTES), result(SRP_DONE, SRP_LABEL_BYTES));
    CHECK_EQ(srp_row(after, LENT, i, t, at + SRP_PREVIEW_ROW, SRP_ROW_BYTES), result(SRP_DONE, SRP_ROW_BYTES));
}

/*
 * A preview is what Deliver gives on a copy: the result, and what the receiver then has. The memory and the bytes of out past it are as
 * they were, and all of out where it is turned down.
 */
static void check_preview(struct desk *d, size_t k, size_t out_length)
{
    unsigned long failures = tally.failures;
    uint8_t *after = copied(d->memory, LENT);
    uint8_t wanted[OUT];
    uint64_t r = srp_deliver(after, LENT, k);

    memset(d->out, 0x5a, OUT);
    memset(wanted, 0x5a, OUT);
    if (!SRP_REFUSED(r) && out_length < SRP_PREVIEW_BYTES)
        r = SRP_NO_ROOM;
    if (!SRP_REFUSED(r))
        put_preview(wanted, d->memory, after, k);
    CHECK_EQ(call_on(d, (struct call){PREVIEW, k, 0}, LENT, out_length), r);
    CHECK_SAME(d->out, wanted, OUT);
    CHECK_SAME(d->memory, d->before, LENT);
    if (tally.failures != failures)
        fprintf(stderr, "    at packet %zu, into %zu bytes\n", k, out_length);
    free(after);
}

/* Every packet in the air, and the place after the last. */
static void check_previews(struct desk *d)
{
    static const size_t lengths[] = {0, SRP_PREVIEW_BYTES - 1, SRP_PREVIEW_BYTES, SRP_PREVIEW_BYTES + 1, OUT};

    for (size_t k = 0; k <= d->memory[SRP_AIR_AT]; k++)
        for (size_t i = 0; i < sizeof lengths / sizeof *lengths; i++)
            check_preview(d, k, lengths[i]);
}

/* After each step of 01's example and of the square. */
static void test_previews(void)
{
    for (size_t steps = 0; steps <= EXAMPLE; steps++) {
        struct desk *d = example_after(steps);

        check_previews(d);
        free(d);
    }
    for (size_t steps = 0; steps <= SQUARE; steps++) {
        struct desk *d = square_after(steps);

        check_previews(d);
        free(d);
    }
}

/* A preview by its values: the result, the label, the row's count and the mask. */
#define CHECK_PREVIEW(d, k, answer, count, s, m, denominator, successors, mask)                                                          \
    do {                                                                                                                                 \
        check_preview((d), (k), OUT);                                                                                                    \
        CHECK_EQ(srp_preview((d)->memory, LENT, (k), (d)->out, OUT), result((answer), (count)));                                         \
        CHECK_LABEL((d)->out + SRP_PREVIEW_LABEL, (s), (m), (denominator));                                                              \
        CHECK_EQ((d)->out[SRP_PREVIEW_ROW + SRP_ROW_COUNT], (successors));                                                               \
        CHECK_EQ(srp_read2((d)->out + SRP_PREVIEW_MASK), (mask));                                                                        \
    } while (0)

/* Requests. The destination shows its own label, as it is after the step. */
static void test_previews_of_requests(void)
{
    struct desk *d = example_after(3);
    uint8_t *packet = d->memory + SRP_PACKET_AT(0);

    CHECK_PREVIEW(d, 0, SRP_REQUEST_SENT_ON, 2, 0, 1, 1, 0, 0);
    play(d, example, 3, 4);
    CHECK_PREVIEW(d, 0, SRP_REQUEST_ANSWERED, 1, 1, 0, 1, 0, 0);
    CHECK_PREVIEW(d, 1, SRP_REQUEST_KNOWN, 0, 0, 1, 1, 0, 0);
    packet[SRP_PACKET_RESET] = 1;
    put_label(packet + SRP_PACKET_LABEL, UINT64_MAX - 1, 0, 1);
    CHECK_PREVIEW(d, 0, SRP_REQUEST_ANSWERED, 1, UINT64_MAX, 0, 1, 0, 0);
    put_label(packet + SRP_PACKET_LABEL, UINT64_MAX, 0, 1);
    CHECK_PREVIEW(d, 0, SRP_REQUEST_NOT_ANSWERED, 0, 1, 0, 1, 0, 0);
    free(d);
}

/* Replies. The label and the row are those after the step, also where another successor leaves the row. */
static void test_previews_of_replies(void)
{
    struct desk *d = example_after(6);
    uint8_t *packet = d->memory + SRP_PACKET_AT(0), *row = d->memory + SRP_ROW_AT(2, 0);

    CHECK_PREVIEW(d, 0, SRP_REPLY_TAKEN, 1, 1, 1, 2, 1, 0);
    CHECK_EQ(d->out[SRP_PREVIEW_ROW + SRP_ROW_ENTRIES + SRP_ENTRY_STATION], 0);
    CHECK_LABEL(d->out + SRP_PREVIEW_ROW + SRP_ROW_ENTRIES + SRP_ENTRY_LABEL, 1, 0, 1);
    put_label(d->memory + SRP_RECORD_AT(1, 2) + SRP_RECORD_CACHED, 1, 0, 1);
    CHECK_PREVIEW(d, 0, SRP_CACHED_NOT_ABOVE, 0, 0, 1, 1, 0, 0);
    put_label(d->memory + SRP_RECORD_AT(1, 2) + SRP_RECORD_CACHED, 0, 1, 1);
    play(d, example, 6, 7);
    CHECK_PREVIEW(d, 0, SRP_REPLY_TAKEN, 0, 1, 2, 3, 1, 0);
    put_label(packet + SRP_PACKET_LABEL, 1, 1, UINT32_MAX);
    CHECK_PREVIEW(d, 0, SRP_DOES_NOT_FIT, 0, 0, 1, 1, 0, 0);
    put_label(d->memory + SRP_LABEL_AT(2, 0), 1, 2, 3);
    row[SRP_ROW_COUNT] = 1;
    row[SRP_ROW_ENTRIES + SRP_ENTRY_STATION] = 0;
    put_label(row + SRP_ROW_ENTRIES + SRP_ENTRY_LABEL, 1, 0, 1);
    put_label(packet + SRP_PACKET_LABEL, 1, 2, 3);
    CHECK_PREVIEW(d, 0, SRP_OWN_NOT_ABOVE, 0, 1, 2, 3, 1, 0);
    put_label(packet + SRP_PACKET_LABEL, 2, 0, 1);
    CHECK_PREVIEW(d, 0, SRP_REPLY_TAKEN, 0, 2, 1, 2, 1, 0);
    CHECK_EQ(d->out[SRP_PREVIEW_ROW + SRP_ROW_ENTRIES + SRP_ENTRY_STATION], 1);
    put_label(row + SRP_ROW_ENTRIES + SRP_ENTRY_LABEL, 3, 0, 1);
    CHECK_PREVIEW(d, 0, SRP_REPLY_TAKEN, 0, 2, 1, 2, 2, 0);
    put(packet + SRP_PACKET_NUMBER, 4, 2);
    CHECK_PREVIEW(d, 0, SRP_REPLY_UNASKED, 0, 1, 2, 3, 1, 0);
    free(d);
}

/* Station i's row for t: the first so many of stations 0, 2 and 3. */
static void put_successors(uint8_t *memory, unsigned i, unsigned t, uint8_t count)
{
    static const uint8_t stations[] = {0, 2, 3};
    uint8_t *row = memory + SRP_ROW_AT(i, t);

    row[SRP_ROW_COUNT] = count;
    for (unsigned k = 0; k < count; k++) {
        row[SRP_ROW_ENTRIES + SRP_ENTRY_BYTES * k + SRP_ENTRY_STATION] = stations[k];
        put_label(row + SRP_ROW_ENTRIES + SRP_ENTRY_BYTES * k + SRP_ENTRY_LABEL, 1, 0, 1);
    }
}

/* Errors, which show no label and no row. Of 16 stations, 1 is told by 0 that it has none for 2, 4, 9 and 15. */
static void test_previews_of_errors(void)
{
    struct desk *d = opened(16, 1);
    uint8_t *packet = d->memory + SRP_PACKET_AT(0);

    CHECK_EQ(call_on(d, (struct call){SRP_EVENT_UP, 1, 5}, LENT, OUT), SRP_DONE);
    CHECK_EQ(call_on(d, (struct call){SRP_EVENT_UP, 7, 1}, LENT, OUT), SRP_DONE);
    d->memory[SRP_AIR_AT] = 1;
    packet[SRP_PACKET_RECEIVER] = 1;
    packet[SRP_PACKET_KIND] = SRP_ERROR;
    put(packet + SRP_PACKET_MASK, 2, 1u << 2 | 1u << 4 | 1u << 9 | 1u << 15);
    put_successors(d->memory, 1, 3, 1);
    CHECK_PREVIEW(d, 0, SRP_ERROR_NONE_REMOVED, 0, 0, 0, 0, 0, 0);
    put_successors(d->memory, 1, 9, 3);
    CHECK_PREVIEW(d, 0, SRP_ERROR_NONE_EMPTIED, 0, 0, 0, 0, 0, 0);
    put_successors(d->memory, 1, 2, 1);
    CHECK_PREVIEW(d, 0, SRP_ERROR_EMPTIED, 2, 0, 0, 0, 0, 1u << 2);
    put_successors(d->memory, 1, 15, 1);
    CHECK_PREVIEW(d, 0, SRP_ERROR_EMPTIED, 2, 0, 0, 0, 0, 1u << 2 | 1u << 15);
    check_previews(d);
    free(d);
}

/* ---- New label ------------------------------------------------------------------------------ */

struct label {
    uint64_t s;
    uint32_t m, d;
};

static uint64_t new_label(struct label own, struct label cached, struct label advertised)
{
    return srp_new_label(own.s, own.m, own.d, cached.s, cached.m, cached.d, advertised.s, advertised.m, advertised.d);
}

/* Own, cached and advertised label; the low half (m, or the number) and the high half (d, or 0). */
static void test_new_label(void)
{
    static const struct {
        struct label own, cached, advertised;
        uint32_t low, high;
    } cases[] = {
        {{0, 1, 1}, {0, 1, 1}, {1, 0, 1}, 1, 2},
        {{1, 2, 3}, {1, 2, 3}, {1, 1, 2}, 3, 5},
        {{0, 1, 1}, {1, 2, 3}, {1, 3, 5}, 5, 8},
        {{1, 2, 3}, {1, 3, 4}, {1, 5, 8}, 2, 3},
        {{1, 1, 2}, {0, 1, 1}, {2, 0, 1}, 1, 2},
        {{1, 1, 2}, {0, 1, 1}, {1, 2, 4}, SRP_OWN_NOT_ABOVE, 0},
        {{2, 1, 2}, {0, 1, 1}, {1, 0, 1}, SRP_OWN_NOT_ABOVE, 0},
        {{0, 1, 1}, {2, 1, 2}, {1, 0, 1}, SRP_CACHED_NOT_ABOVE, 0},
        {{0, 1, 1}, {0, 1, 1}, {1, 1, 4294967294u}, 2, 4294967295u},
        {{0, 1, 1}, {0, 1, 1}, {1, 1, 4294967295u}, SRP_DOES_NOT_FIT, 0},
        {{1, 2, 3}, {1, 2, 3}, {1, 1, 4294967292u}, 1, 2},
        {{1, 2, 3}, {1, 2, 3}, {1, 1, 4294967293u}, 1, 2},
        /* The last denominator that fits, and the next: between k/(2k + 1) and 1/2 there is (k + 1)/(2k + 3), between k/(3k + 1) and 1/3
         * there is (k + 1)/(3k + 4). */
        {{0, 1, 1}, {1, 1, 2}, {1, 2147483646u, 4294967293u}, 2147483647u, 4294967295u},
        {{0, 1, 1}, {1, 1, 3}, {1, 1431655764u, 4294967293u}, SRP_DOES_NOT_FIT, 0},
        /* Between 1/d and 3/(3d + 2) there is 2/(2d + 1): 114 is not judged by the sum of the denominators. */
        {{0, 1, 1}, {1, 1, 1431655763u}, {1, 3, 4294967291u}, 2, 2863311527u},
        /* The ends are the cached label and the advertised one, also where the own label is above both. */
        {{1, 2, 3}, {1, 2, 5}, {1, 1, 3}, 3, 8},
        /* Labels that are not in lowest terms: an own label that is kept stays as it is, and q + 1 reads V's own numbers. */
        {{1, 2, 4}, {1, 2, 3}, {1, 0, 1}, 2, 4},
        {{0, 1, 1}, {1, 2, 4}, {1, 0, 7}, 1, 3},
        {{0, 1, 1}, {1, 4, 6}, {1, 2, 4}, 3, 5},
        {{0, 1, 1}, {0, 1, 1}, {1, 2, 4}, 3, 5},
        /* Out of range comes first, for each of the three. */
        {{1, 1, 1}, {0, 1, 1}, {1, 0, 1}, SRP_OUT_OF_RANGE, 0},
        {{0, 1, 2}, {0, 1, 1}, {1, 0, 1}, SRP_OUT_OF_RANGE, 0},
        {{0, 0, 1}, {0, 1, 1}, {1, 0, 1}, SRP_OUT_OF_RANGE, 0},
        {{0, 1, 1}, {1, 0, 0}, {1, 0, 1}, SRP_OUT_OF_RANGE, 0},
        {{0, 1, 1}, {0, 1, 1}, {1, 3, 2}, SRP_OUT_OF_RANGE, 0},
        {{2, 1, 2}, {2, 1, 2}, {0, 2, 2}, SRP_OUT_OF_RANGE, 0},
        /* The own label before the cached one. */
        {{2, 1, 2}, {2, 1, 2}, {1, 0, 1}, SRP_OWN_NOT_ABOVE, 0},
        /* All 64 bits of s, and fractions whose products do not fit 32 bits. */
        {{UINT64_MAX - 1, 1, 2}, {0, 1, 1}, {UINT64_MAX, 0, 1}, 1, 2},
        {{1, 65536, 65537}, {0, 1, 1}, {1, 1, 65536}, 65536, 65537},
        {{1, 1, 65536}, {0, 1, 1}, {1, 65536, 65537}, SRP_OWN_NOT_ABOVE, 0},
        {{1, 4294967294u, 4294967295u}, {0, 1, 1}, {1, 4294967293u, 4294967294u}, 4294967294u, 4294967295u},
    };

    for (size_t k = 0; k < sizeof cases / sizeof *cases; k++) {
        unsigned long failures = tally.failures;

        CHECK_EQ(new_label(cases[k].own, cases[k].cached, cases[k].advertised), result(cases[k].low, cases[k].high));
        if (tally.failures != failures)
            fprintf(stderr, "    at case %zu\n", k);
    }
}

/*
 * The upper of two labels as the cached one, the lower as the advertised one. (0, 1/1) stands for the fraction 1/1 with every s: no label
 * has that fraction otherwise, and V + 1/1 is the split with it.
 */
static uint64_t split(struct label x, struct label y)
{
    const struct label unassigned = {0, 1, 1};
    bool x_is_lower = (uint64_t)x.m * y.d < (uint64_t)y.m * x.d;

    return x_is_lower ? new_label(unassigned, y, x) : new_label(unassigned, x, y);
}

/* From 0/1 and 1/1 the newest two are split each time, 45 times; the 46th does not fit. */
static void test_splits(void)
{
    struct label older = {1, 0, 1}, newer = {0, 1, 1};

    for (unsigned k = 0; k < 45; k++) {
        uint64_t r = split(older, newer);

        CHECK_EQ(SRP_LABEL_TAKEN(r), true);
        CHECK_EQ(SRP_TAKEN_M(r), (uint64_t)older.m + newer.m);
        CHECK_EQ(SRP_TAKEN_D(r), (uint64_t)older.d + newer.d);
        older = newer;
        newer = (struct label){1, SRP_TAKEN_M(r), SRP_TAKEN_D(r)};
    }
    CHECK_EQ(newer.d, 2971215073u);
    CHECK_EQ(split(older, newer), SRP_DOES_NOT_FIT);
}

/* The ends of splits that are tried by every denominator go up to this one. */
#define SMALL_ENDS 24

/*
 * Every two fractions with small denominators, in lowest terms or not. What is expected is found by trying: the first denominator of 1, 2, 3, ..
 * that has a fraction strictly between.
 */
static void test_simplest(void)
{
    const struct label unassigned = {0, 1, 1};
    struct label x = {1, 0, 0}, y = {1, 0, 0};

    for (x.d = 1; x.d <= SMALL_ENDS; x.d++)
        for (x.m = 0; x.m < x.d; x.m++)
            for (y.d = 1; y.d <= SMALL_ENDS; y.d++)
                for (y.m = 0; y.m < y.d; y.m++) {
                    uint32_t m = 0, d = 1;

                    if (x.m * y.d >= y.m * x.d) {
                        CHECK_EQ(new_label(unassigned, y, x), SRP_CACHED_NOT_ABOVE);
                        continue;
                    }
                    while (!(x.m * d < m * x.d && m * y.d < y.m * d))
                        if (++m > d) {
                            m = 0;
                            d++;
                        }
                    CHECK_EQ(new_label(unassigned, y, x), result(m, d));
                    CHECK_EQ(new_label(y, y, x), result(m, d));
                }
}

/* The example before the reply arrives at station 1, whose cached label is now (1, 3/4): between 0/1 and 3/4 there is 1/2, and the sums are 3/5. */
static struct desk *before_split(void)
{
    struct desk *d = example_after(6);

    put_label(d->memory + SRP_RECORD_AT(1, 2) + SRP_RECORD_CACHED, 1, 3, 4);
    return d;
}

/* A split by each call that delivers: Preview, Deliver, Drain and a run. */
static void test_split_delivered(void)
{
    static const uint8_t kinds[] = {SRP_EVENT_DELIVER}, operands[] = {0, 0};
    uint64_t line = 0;
    struct desk *d = before_split();

    CHECK_PREVIEW(d, 0, SRP_REPLY_TAKEN, 1, 1, 1, 2, 1, 0);
    CHECK_EQ(call_on(d, (struct call){SRP_EVENT_DELIVER, 0, 0}, LENT, OUT), result(SRP_REPLY_TAKEN, 1));
    CHECK_LABEL(d->memory + SRP_LABEL_AT(1, 0), 1, 1, 2);
    free(d);
    d = before_split();
    CHECK_EQ(SRP_REFUSED(srp_drain(d->memory, LENT)), false);
    CHECK_LABEL(d->memory + SRP_LABEL_AT(1, 0), 1, 1, 2);
    free(d);
    d = before_split();
    CHECK_EQ(SRP_SHORT_ANSWER(srp_run(d->memory, LENT, kinds, 1, operands, 2, &line, 1)), SRP_DONE);
    CHECK_EQ(SRP_LINE_ANSWER(line), SRP_REPLY_TAKEN);
    CHECK_LABEL(d->memory + SRP_LABEL_AT(1, 0), 1, 1, 2);
    free(d);
}

/*
 * The reset bit is still judged by the sum of the two denominators, whatever lies between the labels: station 1 has (1, 2/3), and the request
 * 1/d; 1/2 fits, and d + 3 or not.
 */
static void test_reset_by_sum(void)
{
    for (uint32_t d = UINT32_MAX - 4; d >= UINT32_MAX - 4; d++) {
        struct desk *k = example_after(3);
        uint8_t *packet = k->memory + SRP_PACKET_AT(0);

        put_label(k->memory + SRP_LABEL_AT(1, 0), 1, 2, 3);
        put_label(packet + SRP_PACKET_LABEL, 1, 1, d);
        CHECK_EQ(call_on(k, (struct call){SRP_EVENT_DELIVER, 0, 0}, LENT, OUT), result(SRP_REQUEST_SENT_ON, 2));
        CHECK_EQ(packet[SRP_PACKET_RESET], d > UINT32_MAX - 3);
        CHECK_LABEL(packet + SRP_PACKET_LABEL, 1, 1, d);
        free(k);
    }
}

/* ---- Scripts -------------------------------------------------------------------------------- */

#define LONGEST SRP_SCRIPT_BYTES(SRP_MAX_EVENTS + 1)

/* The bytes that hexadecimal digits say, and how many. Spaces are left out. */
static size_t bytes_of(const char *digits, uint8_t *bytes)
{
    size_t length = 0;
    unsigned byte;

    for (; *digits; digits += 2) {
        while (*digits == ' ')
            digits++;
        if (sscanf(digits, "%2x", &byte) != 1)
            break;
        bytes[length++] = (uint8_t)byte;
    }
    return length;
}

static const char example_script[] = "03 0900 0100000000000000 010103060607060609 0001 0102 0200 0000 0000 0000 0000 0000 0200";

/* Reading into slices of these lengths, with bytes behind them that are looked at too. */
static uint64_t read_script(int line, const uint8_t *script, size_t length, uint8_t *kinds, size_t kinds_length, uint8_t *operands,
                            size_t operands_length)
{
    uint8_t *own = copied(script, length);
    uint64_t r = srp_read_script(own, length, kinds, kinds_length, operands, operands_length);

    check_same(line, "the script", own, script, length);
    free(own);
    return r;
}

static void check_reading_refused(int line, const uint8_t *script, size_t length, size_t kinds_length, size_t operands_length, uint32_t number)
{
    size_t kinds_size = kinds_length + GUARD, operands_size = operands_length + GUARD;
    uint8_t *kinds = memset(allocated(kinds_size), 0xa5, kinds_size), *operands = memset(allocated(operands_size), 0x5a, operands_size);
    uint8_t *kinds_before = copied(kinds, kinds_size), *operands_before = copied(operands, operands_size);

    check_eq(line, "reading", read_script(line, script, length, kinds, kinds_length, operands, operands_length), number);
    check_same(line, "kinds", kinds, kinds_before, kinds_size);
    check_same(line, "operands", operands, operands_before, operands_size);
    free(kinds);
    free(operands);
    free(kinds_before);
    free(operands_before);
}

static void test_reading(void)
{
    uint8_t script[64], kinds[9 + GUARD], operands[18 + GUARD], guard[GUARD];
    size_t length = bytes_of(example_script, script);
    uint64_t r;

    memset(guard, 0xa5, GUARD);
    CHECK_EQ(length, SRP_SCRIPT_BYTES(EXAMPLE));
    for (size_t more = 0; more <= GUARD; more += GUARD / 4) {
        memset(kinds, 0xa5, sizeof kinds);
        memset(operands, 0xa5, sizeof operands);
        r = read_script(__LINE__, script, length, kinds, 9 + more, operands, 18 + more);
        CHECK_EQ(SRP_ANSWER(r), SRP_DONE);
        CHECK_EQ(SRP_EVENTS(r), EXAMPLE);
        CHECK_EQ(SRP_STATIONS(r), 3);
        CHECK_EQ(SRP_COUNT(r), 9 + 65536 * 3);
        for (unsigned k = 0; k < EXAMPLE; k++) {
            CHECK_EQ(kinds[k], (unsigned)example[k].call.kind);
            CHECK_EQ(operands[2 * k], example[k].call.a);
            CHECK_EQ(operands[2 * k + 1], example[k].call.b);
        }
        CHECK_SAME(kinds + 9, guard, GUARD);
        CHECK_SAME(operands + 18, guard, GUARD);
    }
    CHECK_EQ(srp_script_start(script, length), 1);
}

static void test_script_start(void)
{
    uint8_t script[64];
    size_t length = bytes_of("02 0000 ffffffffffffffff", script);

    for (size_t less = 0; less < 11; less++) {
        uint8_t *own = copied(script, less);

        CHECK_EQ(srp_script_start(own, less), 0);
        free(own);
    }
    CHECK_EQ(srp_script_start(script, length), UINT64_MAX);
    length = bytes_of("02 0100 0102030405060708 01 0001", script);
    CHECK_EQ(srp_script_start(script, length), 0x0807060504030201u);
    /* A script that does not read has none: by 10, 1, 1 and 11. */
    CHECK_EQ(srp_script_start(script, length - 1), 0);
    length = bytes_of("02 0000 0102030405060708 aa", script);
    CHECK_EQ(srp_script_start(script, length), 0);
    length = bytes_of("11 0000 0102030405060708", script);
    CHECK_EQ(srp_script_start(script, length), 0);
    length = bytes_of("02 0000 0000000000000000", script);
    CHECK_EQ(srp_script_start(script, length), 0);
    length = bytes_of("02 0100 0102030405060708 0a 0001", script);
    CHECK_EQ(srp_script_start(script, length), 0);
    length = bytes_of("02 0100 0102030405060708 04 0001", script);
    CHECK_EQ(srp_script_start(script, length), 0);
}

static void test_reading_refused(void)
{
    static const struct {
        const char *digits;
        size_t kinds_length, operands_length;
        uint32_t number;
    } cases[] = {
        {"", 9, 18, SRP_SCRIPT_SHORT},
        {"00", 0, 0, SRP_SCRIPT_SHORT},
        {"02 0000 01000000000000", 9, 18, SRP_SCRIPT_SHORT},
        {"02 0100 0100000000000000 01 00", 9, 18, SRP_SCRIPT_SIZE},
        {"02 0000 0100000000000000 00", 9, 18, SRP_SCRIPT_SIZE},
        {"00 0000 0000000000000000 00", 0, 0, SRP_SCRIPT_SIZE},
        {"02 0110 0100000000000000", 9, 18, SRP_SCRIPT_SIZE},
        {"00 0000 0100000000000000", 9, 18, SRP_OUT_OF_RANGE},
        {"01 0000 0100000000000000", 9, 18, SRP_OUT_OF_RANGE},
        {"11 0000 0100000000000000", 9, 18, SRP_OUT_OF_RANGE},
        {"02 0000 0000000000000000", 9, 18, SRP_OUT_OF_RANGE},
        {"02 0100 0000000000000000 00 0000", 0, 0, SRP_OUT_OF_RANGE},
        {"02 0100 0100000000000000 00 0000", 9, 18, SRP_NO_EVENT},
        {"02 0100 0100000000000000 0a 0000", 0, 0, SRP_NO_EVENT},
        {"02 0100 0100000000000000 ff 0000", 9, 18, SRP_NO_EVENT},
        {"02 0100 0100000000000000 04 0001", 9, 18, SRP_NO_EVENT},
        {"02 0100 0100000000000000 06 0080", 9, 18, SRP_NO_EVENT},
        {"02 0100 0100000000000000 07 00ff", 9, 18, SRP_NO_EVENT},
        {"02 0200 0100000000000000 0108 0001 0001", 0, 0, SRP_NO_EVENT},
        {example_script, 8, 18, SRP_NO_ROOM},
        {example_script, 9, 17, SRP_NO_ROOM},
        {example_script, 0, 0, SRP_NO_ROOM},
    };
    uint8_t script[64];

    for (size_t k = 0; k < sizeof cases / sizeof *cases; k++) {
        unsigned long failures = tally.failures;
        size_t length = bytes_of(cases[k].digits, script);

        check_reading_refused(__LINE__, script, length, cases[k].kinds_length, cases[k].operands_length, cases[k].number);
        if (tally.failures != failures)
            fprintf(stderr, "    at case %zu\n", k);
    }
}

/* Writing into a slice of this length, with bytes behind it that are looked at too. */
static void check_writing_refused(int line, size_t n, uint64_t start, const uint8_t *kinds, size_t kinds_length, const uint8_t *operands,
                                  size_t operands_length, size_t out_length, uint32_t number)
{
    uint8_t *own_kinds = copied(kinds, kinds_length), *own_operands = copied(operands, operands_length);
    uint8_t *out = memset(allocated(out_length + GUARD), 0xa5, out_length + GUARD), *before = copied(out, out_length + GUARD);

    check_eq(line, "writing", srp_write_script(n, start, own_kinds, kinds_length, own_operands, operands_length, out, out_length), number);
    check_same(line, "out", out, before, out_length + GUARD);
    check_same(line, "kinds", own_kinds, kinds, kinds_length);
    check_same(line, "operands", own_operands, operands, operands_length);
    free(own_kinds);
    free(own_operands);
    free(out);
    free(before);
}

#define CHECK_WRITING(number, n, start, e, operands_length, out_length)                                                                  \
    check_writing_refused(__LINE__, (n), (start), kinds, (e), operands, (operands_length), (out_length), (number))

/* What was read is written back to the same bytes. */
static void test_writing(void)
{
    uint8_t script[64], out[38 + GUARD], kinds[9], operands[18], guard[GUARD];
    size_t length = bytes_of(example_script, script);

    memset(guard, 0x5a, GUARD);
    CHECK_EQ(SRP_ANSWER(srp_read_script(script, length, kinds, 9, operands, 18)), SRP_DONE);
    for (size_t more = 0; more <= GUARD; more += GUARD / 2) {
        memset(out, 0x5a, sizeof out);
        CHECK_EQ(srp_write_script(3, 1, kinds, 9, operands, 18, out, 38 + more), result(SRP_DONE, 38));
        CHECK_SAME(out, script, 38);
        CHECK_SAME(out + 38, guard, GUARD);
    }
}

static void test_writing_refused(void)
{
    uint8_t *kinds = memset(allocated(SRP_MAX_EVENTS + 1), SRP_EVENT_UP, SRP_MAX_EVENTS + 1);
    uint8_t *operands = memset(allocated(2 * SRP_MAX_EVENTS + 2), 0, 2 * SRP_MAX_EVENTS + 2);

    CHECK_WRITING(SRP_SCRIPT_SIZE, 2, 1, SRP_MAX_EVENTS + 1, 2 * SRP_MAX_EVENTS + 2, LONGEST);
    CHECK_WRITING(SRP_SCRIPT_SIZE, 2, 1, 3, 5, 100);
    CHECK_WRITING(SRP_SCRIPT_SIZE, 2, 1, 3, 7, 100);
    CHECK_WRITING(SRP_SCRIPT_SIZE, 0, 0, 0, 1, 0);
    CHECK_WRITING(SRP_OUT_OF_RANGE, 0, 1, 3, 6, 100);
    CHECK_WRITING(SRP_OUT_OF_RANGE, 1, 1, 3, 6, 100);
    CHECK_WRITING(SRP_OUT_OF_RANGE, 17, 1, 3, 6, 100);
    CHECK_WRITING(SRP_OUT_OF_RANGE, 256 + 3, 1, 3, 6, 100);
    CHECK_WRITING(SRP_OUT_OF_RANGE, SIZE_MAX, 1, 3, 6, 0);
    CHECK_WRITING(SRP_OUT_OF_RANGE, 3, 0, 3, 6, 100);
    CHECK_WRITING(SRP_NO_ROOM, 3, 1, 3, 6, 19);
    CHECK_WRITING(SRP_NO_ROOM, 3, 1, 3, 6, 0);
    CHECK_WRITING(SRP_NO_ROOM, 3, 1, 0, 0, 10);
    kinds[2] = 0;
    CHECK_WRITING(SRP_NO_EVENT, 3, 1, 3, 6, 100);
    CHECK_WRITING(SRP_OUT_OF_RANGE, 3, 0, 3, 6, 0);
    kinds[2] = 10;
    CHECK_WRITING(SRP_NO_EVENT, 3, 1, 3, 6, 0);
    operands[5] = 1;
    for (int kind = SRP_EVENT_UP; kind <= SRP_EVENT_TRACE; kind++) {
        bool uses_b = kind <= SRP_EVENT_SOLICIT || kind == SRP_EVENT_EXPIRE || kind == SRP_EVENT_TRACE;

        kinds[2] = (uint8_t)kind;
        CHECK_WRITING(uses_b ? SRP_NO_ROOM : SRP_NO_EVENT, 3, 1, 3, 6, 19);
    }
    free(kinds);
    free(operands);
}

/* Scripts of e events, there and back: none, and as many as there may be. One more is turned down. */
static void check_script_of(size_t e)
{
    uint8_t *script = allocated(LONGEST), *kinds = allocated(e), *operands = allocated(2 * e);

    for (size_t k = 0; k < e; k++) {
        kinds[k] = (uint8_t)(1 + k % 9);
        operands[2 * k] = (uint8_t)k;
        operands[2 * k + 1] = k % 9 < 3 ? (uint8_t)(k / 7) : 0;
    }
    CHECK_EQ(srp_write_script(16, UINT64_MAX, kinds, e, operands, 2 * e, script, SRP_SCRIPT_BYTES(e)), result(SRP_DONE, SRP_SCRIPT_BYTES(e)));
    CHECK_EQ(srp_read2(script + 1), e);
    CHECK_EQ(srp_script_start(script, SRP_SCRIPT_BYTES(e)), UINT64_MAX);
    CHECK_SAME(script + 11, kinds, e);
    CHECK_SAME(script + 11 + e, operands, 2 * e);
    memset(kinds, 0, e);
    memset(operands, 0, 2 * e);
    CHECK_EQ(srp_read_script(script, SRP_SCRIPT_BYTES(e), kinds, e, operands, 2 * e), result(SRP_DONE, e + 65536 * 16));
    CHECK_SAME(kinds, script + 11, e);
    CHECK_SAME(operands, script + 11 + e, 2 * e);
    free(script);
    free(kinds);
    free(operands);
}

static void test_script_sizes(void)
{
    uint8_t *script = memset(allocated(LONGEST), 1, LONGEST);

    check_script_of(0);
    check_script_of(1);
    check_script_of(SRP_MAX_EVENTS);
    script[0] = 2;
    put(script + 1, 2, SRP_MAX_EVENTS + 1);
    check_reading_refused(__LINE__, script, LONGEST, SRP_MAX_EVENTS + 1, 2 * SRP_MAX_EVENTS + 2, SRP_SCRIPT_SIZE);
    put(script + 1, 2, SRP_MAX_EVENTS);
    check_reading_refused(__LINE__, script, LONGEST, SRP_MAX_EVENTS, 2 * SRP_MAX_EVENTS, SRP_SCRIPT_SIZE);
    free(script);
}

/* ---- Refusals ------------------------------------------------------------------------------- */

/* Numbers that are no station and no packet, and look like one in 8, 16 or 32 bits. */
static const size_t too_large[] = {128, 255, 256, 257, 65536, (size_t)1 << 32, ((size_t)1 << 32) + 1, SIZE_MAX - 255, SIZE_MAX};
#define TOO_LARGE (sizeof too_large / sizeof *too_large)

/* 2: of two stations, then of one. n is 3. */
static void test_no_station(void)
{
    static const int pairs[] = {SRP_EVENT_UP, SRP_EVENT_DOWN, SRP_EVENT_SOLICIT, SRP_EVENT_EXPIRE, SRP_EVENT_TRACE, LINK, RECORD, LABEL, ROW};
    static const int singles[] = {SRP_EVENT_GIVE_UP, STATION};
    struct desk *d = example_after(3);

    for (size_t k = 0; k < sizeof pairs / sizeof *pairs; k++) {
        CHECK_REFUSED(d, SRP_NO_STATION, pairs[k], 3, 0);
        CHECK_REFUSED(d, SRP_NO_STATION, pairs[k], 0, 3);
        CHECK_REFUSED(d, SRP_NO_STATION, pairs[k], 3, 3);
        for (size_t i = 0; i < TOO_LARGE; i++) {
            CHECK_REFUSED(d, SRP_NO_STATION, pairs[k], too_large[i], 2);
            CHECK_REFUSED(d, SRP_NO_STATION, pairs[k], 2, too_large[i]);
        }
        for (size_t i = 0; i < 3 && pairs[k] != LABEL && pairs[k] != ROW; i++)
            CHECK_REFUSED(d, SRP_NO_STATION, pairs[k], i, i);
    }
    for (size_t k = 0; k < sizeof singles / sizeof *singles; k++) {
        CHECK_REFUSED(d, SRP_NO_STATION, singles[k], 3, 0);
        for (size_t i = 0; i < TOO_LARGE; i++)
            CHECK_REFUSED(d, SRP_NO_STATION, singles[k], too_large[i], 0);
    }
    free(d);
}

/* 3, 4, 5 and 6. Station 2 is active, and one packet is in the air. */
static void test_not_as_it_stands(void)
{
    static const int of_packets[] = {SRP_EVENT_DELIVER, SRP_EVENT_LOSE, SRP_EVENT_DUPLICATE, PACKET, PREVIEW};
    struct desk *d = example_after(3);

    CHECK_REFUSED(d, SRP_LINK_ALREADY, SRP_EVENT_UP, 0, 1);
    CHECK_REFUSED(d, SRP_LINK_ALREADY, SRP_EVENT_UP, 1, 0);
    CHECK_REFUSED(d, SRP_LINK_ALREADY, SRP_EVENT_UP, 2, 1);
    CHECK_REFUSED(d, SRP_LINK_ALREADY, SRP_EVENT_DOWN, 0, 2);
    CHECK_REFUSED(d, SRP_LINK_ALREADY, SRP_EVENT_DOWN, 2, 0);
    CHECK_REFUSED(d, SRP_IS_ACTIVE, SRP_EVENT_SOLICIT, 2, 0);
    CHECK_REFUSED(d, SRP_IS_ACTIVE, SRP_EVENT_SOLICIT, 2, 1);
    CHECK_REFUSED(d, SRP_IS_PASSIVE, SRP_EVENT_GIVE_UP, 0, 0);
    CHECK_REFUSED(d, SRP_IS_PASSIVE, SRP_EVENT_GIVE_UP, 1, 0);
    for (size_t k = 0; k < sizeof of_packets / sizeof *of_packets; k++) {
        CHECK_REFUSED(d, SRP_NO_PACKET, of_packets[k], 1, 0);
        for (size_t i = 0; i < TOO_LARGE; i++)
            CHECK_REFUSED(d, SRP_NO_PACKET, of_packets[k], too_large[i], 0);
    }
    free(d);
}

/* The first packet again and again, until so many are in the air. */
static void fill_air(struct desk *d, unsigned packets)
{
    while (d->memory[SRP_AIR_AT] < packets) {
        unsigned air = d->memory[SRP_AIR_AT];

        CHECK_EQ(call_on(d, (struct call){SRP_EVENT_DUPLICATE, 0, 0}, LENT, OUT), SRP_DONE);
        CHECK_EQ(srp_air(d->memory, LENT), result(SRP_DONE, air + 1));
        CHECK_SAME(d->memory + SRP_PACKET_AT(air), d->memory + SRP_PACKET_AT(0), SRP_PACKET_BYTES);
        if (d->memory[SRP_AIR_AT] != air + 1)
            return;
    }
}

/* 7, under a limit of 2 or more: of Duplicate, Solicit, Deliver, its preview and Down. What sends no more is not turned down. */
static void check_air_full(unsigned limit)
{
    unsigned long failures = tally.failures;
    struct desk *d = example_under(3, limit);

    fill_air(d, limit);
    check_shown(d);
    CHECK_REFUSED(d, SRP_AIR_FULL, SRP_EVENT_DUPLICATE, 0, 0);
    CHECK_REFUSED(d, SRP_AIR_FULL, SRP_EVENT_DUPLICATE, limit - 1, 0);
    CHECK_REFUSED(d, SRP_NO_PACKET, SRP_EVENT_DUPLICATE, limit, 0);
    CHECK_REFUSED(d, SRP_AIR_FULL, SRP_EVENT_SOLICIT, 0, 1);
    CHECK_REFUSED(d, SRP_AIR_FULL, SRP_EVENT_DELIVER, 0, 0); /* 1 would send two on */
    CHECK_REFUSED(d, SRP_AIR_FULL, PREVIEW, 0, 0);
    check_refused(__LINE__, d, (struct call){PREVIEW, 0, 0}, LENT, 0, SRP_AIR_FULL);
    check_refused(__LINE__, d, (struct call){PREVIEW, limit, 0}, LENT, 0, SRP_NO_PACKET);
    CHECK_EQ(call_on(d, (struct call){SRP_EVENT_LOSE, limit - 1, 0}, LENT, OUT), SRP_DONE);
    CHECK_PREVIEW(d, 0, SRP_REQUEST_SENT_ON, 2, 0, 1, 1, 0, 0);
    CHECK_EQ(call_on(d, (struct call){SRP_EVENT_DELIVER, 0, 0}, LENT, OUT), result(SRP_REQUEST_SENT_ON, 2));
    check_left(__LINE__, d);
    CHECK_EQ(srp_air(d->memory, LENT), result(SRP_DONE, limit));
    /* Down drops what is between the two, so nothing is over. */
    CHECK_EQ(call_on(d, (struct call){SRP_EVENT_DOWN, 1, 2}, LENT, OUT), SRP_DONE);
    CHECK_EQ(srp_air(d->memory, LENT), result(SRP_DONE, 1));
    fill_air(d, limit);
    CHECK_EQ(call_on(d, (struct call){SRP_EVENT_GIVE_UP, 2, 0}, LENT, OUT), SRP_DONE);
    CHECK_EQ(call_on(d, (struct call){SRP_EVENT_SOLICIT, 2, 0}, LENT, OUT), SRP_DONE); /* no neighbour, nothing sent */
    CHECK_PREVIEW(d, limit / 2, SRP_REQUEST_ANSWERED, 1, 1, 0, 1, 0, 0);
    CHECK_EQ(call_on(d, (struct call){SRP_EVENT_DELIVER, limit / 2, 0}, LENT, OUT), result(SRP_REQUEST_ANSWERED, 1));
    CHECK_EQ(srp_air(d->memory, LENT), result(SRP_DONE, limit));
    check_left(__LINE__, d);
    if (tally.failures != failures)
        fprintf(stderr, "    under limit %u\n", limit);
    free(d);
}

static void test_air_full(void)
{
    static const unsigned limits[] = {2, 3, 5, 64, 127, SRP_MAX_PACKETS};

    for (size_t k = 0; k < sizeof limits / sizeof *limits; k++)
        check_air_full(limits[k]);
}

/* ---- Draining ------------------------------------------------------------------------------- */

/* A result with two counts. */
static uint64_t drained(uint64_t deliveries, uint64_t losses)
{
    return deliveries << 16 | losses << 40;
}

/* Packet 0 by single calls, until none is left or the bound is passed: how many were delivered and lost. */
static uint64_t drain_singly(uint8_t *memory)
{
    uint64_t deliveries = 0, losses = 0;

    while (memory[SRP_AIR_AT] > 0 && deliveries + losses <= SRP_MAX_TURNS) {
        uint64_t r = srp_deliver(memory, LENT, 0);

        if (r == SRP_AIR_FULL || r == SRP_SERIALS_USED_UP) {
            CHECK_EQ(srp_lose(memory, LENT, 0), SRP_DONE);
            losses++;
        } else {
            CHECK_EQ(SRP_REFUSED(r), false);
            deliveries++;
        }
    }
    return drained(deliveries, losses);
}

/* The most packets that can be delivered and lost, of p in the air of n stations. */
static uint64_t turn_limit(uint64_t n, uint64_t p)
{
    return p + p * n * (n - 1) + p * n + (n - 1) * (n * (n - 1) + p + p * n);
}

/* Draining and the single calls give the same counts and the same bytes. */
static void check_drain(int line, struct desk *d, uint64_t deliveries, uint64_t losses)
{
    uint8_t *memory = copied(d->memory, LENT);
    uint64_t most = turn_limit(memory[SRP_N_AT], memory[SRP_AIR_AT]);
    uint64_t r = call_on(d, (struct call){DRAIN, 0, 0}, LENT, OUT);

    check_eq(line, "drained", r, drained(deliveries, losses));
    check_eq(line, "the refusal", SRP_REFUSED(r), false);
    check_eq(line, "the answer", SRP_SHORT_ANSWER(r), SRP_DONE);
    check_eq(line, "deliveries", SRP_DELIVERIES(r), deliveries);
    check_eq(line, "losses", SRP_LOSSES(r), losses);
    check_eq(line, "within the bound", deliveries + losses <= most && most <= SRP_MAX_TURNS, true);
    check_eq(line, "single calls", drain_singly(memory), r);
    check_same(line, "memory", d->memory, memory, LENT);
    check_eq(line, "the air", srp_air(d->memory, LENT), SRP_DONE);
    check_left(line, d);
    /* Nothing is left to do. */
    check_eq(line, "drained again", call_on(d, (struct call){DRAIN, 0, 0}, LENT, OUT), SRP_DONE);
    check_same(line, "memory drained again", d->memory, d->before, LENT);
    free(memory);
}

/* 01's example from its request on, alone and in a full air of its copies: of 128 the first is lost, since 1 would send two on. */
static void test_drain(void)
{
    struct desk *d = opened(2, 1);

    CHECK_EQ(turn_limit(SRP_MAX_STATIONS, SRP_MAX_PACKETS), SRP_MAX_TURNS);
    check_drain(__LINE__, d, 0, 0);
    free(d);
    d = example_after(3);
    check_drain(__LINE__, d, 5, 0);
    CHECK_EQ(srp_trace(d->memory, LENT, 2, 0), result(SRP_TRACE_ARRIVED, 2));
    free(d);
    d = example_after(3);
    fill_air(d, SRP_MAX_PACKETS);
    check_drain(__LINE__, d, 131, 1);
    CHECK_EQ(srp_trace(d->memory, LENT, 2, 0), result(SRP_TRACE_ARRIVED, 2));
    free(d);
}

/* Sixteen stations, each linked to all others, of which eight seek at once: 120 packets in the air, and not half of what they lead to is lost. */
static void test_drain_flood(void)
{
    struct desk *d = opened(16, 1);

    for (size_t a = 0; a < 16; a++)
        for (size_t b = a + 1; b < 16; b++)
            CHECK_EQ(call_on(d, (struct call){SRP_EVENT_UP, a, b}, LENT, OUT), SRP_DONE);
    for (size_t a = 0; a < 8; a++)
        CHECK_EQ(call_on(d, (struct call){SRP_EVENT_SOLICIT, a, 15 - a}, LENT, OUT), result(SRP_DONE, 15));
    check_drain(__LINE__, d, 849, 614);
    free(d);
}

/* A count of 129 has no meaning, also where a packet stands in the bytes right after the layout. */
static void test_air_over_full(void)
{
    struct desk *d = example_after(3);

    fill_air(d, SRP_MAX_PACKETS);
    memcpy(d->memory + SRP_LENGTH, d->memory + SRP_PACKET_AT(0), SRP_PACKET_BYTES);
    d->memory[SRP_AIR_AT] = SRP_MAX_PACKETS + 1;
    CHECK_EQ(srp_air(d->memory, LENT), SRP_OUT_OF_RANGE);
    CHECK_REFUSED(d, SRP_OUT_OF_RANGE, SRP_EVENT_LOSE, SRP_MAX_PACKETS, 0);
    CHECK_REFUSED(d, SRP_OUT_OF_RANGE, PREVIEW, SRP_MAX_PACKETS, 0);
    CHECK_REFUSED(d, SRP_OUT_OF_RANGE, SRP_EVENT_UP, 0, 2);
    free(d);
}

static void check_air_full_for_down(unsigned limit)
{
    struct desk *d = example_under(EXAMPLE, limit);

    CHECK_EQ(call_on(d, (struct call){SRP_EVENT_SOLICIT, 2, 0}, LENT, OUT), result(SRP_DONE, 1));
    fill_air(d, limit);
    CHECK_REFUSED(d, SRP_AIR_FULL, SRP_EVENT_DOWN, 0, 1); /* 1 would send an error to 2 */
    CHECK_REFUSED(d, SRP_AIR_FULL, SRP_EVENT_DOWN, 1, 0);
    CHECK_EQ(call_on(d, (struct call){SRP_EVENT_LOSE, 0, 0}, LENT, OUT), SRP_DONE);
    CHECK_EQ(call_on(d, (struct call){SRP_EVENT_DOWN, 1, 0}, LENT, OUT), result(SRP_DONE, 1));
    check_left(__LINE__, d);
    free(d);
}

static void test_air_full_for_down(void)
{
    check_air_full_for_down(2);
    check_air_full_for_down(77);
    check_air_full_for_down(SRP_MAX_PACKETS);
}

/* 8: after 4 and before 7. One number less is taken. */
static void test_numbers_used_up(void)
{
    struct desk *d = example_after(3);

    put(d->memory + SRP_STATION_AT(0) + SRP_STATION_NUMBER, 4, UINT32_MAX);
    put(d->memory + SRP_STATION_AT(2) + SRP_STATION_NUMBER, 4, UINT32_MAX);
    CHECK_REFUSED(d, SRP_NUMBERS_USED_UP, SRP_EVENT_SOLICIT, 0, 1);
    CHECK_REFUSED(d, SRP_IS_ACTIVE, SRP_EVENT_SOLICIT, 2, 1);
    CHECK_REFUSED(d, SRP_NO_STATION, SRP_EVENT_SOLICIT, 0, 3);
    fill_air(d, SRP_MAX_PACKETS);
    CHECK_REFUSED(d, SRP_NUMBERS_USED_UP, SRP_EVENT_SOLICIT, 0, 1);
    CHECK_EQ(call_on(d, (struct call){SRP_EVENT_LOSE, 0, 0}, LENT, OUT), SRP_DONE);
    put(d->memory + SRP_STATION_AT(0) + SRP_STATION_NUMBER, 4, UINT32_MAX - 1);
    CHECK_EQ(call_on(d, (struct call){SRP_EVENT_SOLICIT, 0, 2}, LENT, OUT), result(SRP_DONE, 1));
    CHECK_STATION(d, 0, UINT32_MAX, 2, 1, 1);
    CHECK_EQ(srp_read4(d->memory + SRP_PACKET_AT(SRP_MAX_PACKETS - 1) + SRP_PACKET_NUMBER), UINT32_MAX);
    free(d);
}

/* 12 of the calls that show, after 2 and 6; and an output slice that just fits. */
static void test_no_room(void)
{
    struct desk *d = example_after(3);

    for (int kind = LABEL; kind < KINDS; kind++) {
        bool of_packet = kind == PACKET || kind == PREVIEW;
        struct call c = {kind, 0, of_packet ? 0 : 1}, wrong = {kind, 3, 3};
        size_t bytes = shown_bytes(kind);
        uint64_t done = kind == PREVIEW ? result(SRP_REQUEST_SENT_ON, 2) : result(SRP_DONE, bytes);
        uint8_t *out = allocated(bytes);

        check_refused(__LINE__, d, c, LENT, bytes - 1, SRP_NO_ROOM);
        check_refused(__LINE__, d, c, LENT, 1, SRP_NO_ROOM);
        check_refused(__LINE__, d, c, LENT, 0, SRP_NO_ROOM);
        check_refused(__LINE__, d, wrong, LENT, 0, of_packet ? SRP_NO_PACKET : SRP_NO_STATION);
        check_refused(__LINE__, d, wrong, SRP_LENGTH - 1, 0, SRP_OUT_OF_RANGE);
        CHECK_EQ(call_on(d, c, LENT, OUT), done);
        CHECK_EQ(make(c, d->memory, SRP_LENGTH, out, bytes), done);
        CHECK_SAME(out, d->out, bytes);
        free(out);
    }
    free(d);
}

/* Every call but Open gives 1, whatever its numbers. */
static void check_out_of_range(int line, struct desk *d, size_t length)
{
    for (int kind = SRP_EVENT_UP; kind < KINDS; kind++) {
        if (kind == OPEN)
            continue;
        check_refused(line, d, (struct call){kind, 0, 1}, length, OUT, SRP_OUT_OF_RANGE);
        check_refused(line, d, (struct call){kind, SIZE_MAX, SIZE_MAX}, length, 0, SRP_OUT_OF_RANGE);
    }
}

/* 1: a slice that is too short, with nothing behind it, and the same as the first bytes of a longer one. */
static void check_short_slice(size_t length)
{
    struct desk *d = example_after(3);
    uint8_t *own = copied(d->memory, length);

    for (int kind = SRP_EVENT_UP; kind < KINDS; kind++) {
        CHECK_EQ(make((struct call){kind, kind == OPEN ? 3 : 0, 1}, own, length, d->out, OUT), SRP_OUT_OF_RANGE);
        CHECK_SAME(own, d->memory, length);
    }
    check_out_of_range(__LINE__, d, length);
    check_refused(__LINE__, d, (struct call){OPEN, 3, 1}, length, OUT, SRP_OUT_OF_RANGE);
    free(own);
    free(d);
}

static void test_short_slices(void)
{
    for (size_t length = 0; length < SRP_LENGTH; length += 997)
        check_short_slice(length);
    check_short_slice(1);
    check_short_slice(SRP_AIR_AT);
    check_short_slice(SRP_LENGTH - 1);
}

static void test_open_refused(void)
{
    struct desk *d = example_after(3);

    CHECK_REFUSED(d, SRP_OUT_OF_RANGE, OPEN, 0, 1);
    CHECK_REFUSED(d, SRP_OUT_OF_RANGE, OPEN, 1, 1);
    CHECK_REFUSED(d, SRP_OUT_OF_RANGE, OPEN, 17, 1);
    CHECK_REFUSED(d, SRP_OUT_OF_RANGE, OPEN, 2, 0);
    CHECK_REFUSED(d, SRP_OUT_OF_RANGE, OPEN, 16, 0);
    for (size_t i = 0; i < TOO_LARGE; i++)
        CHECK_REFUSED(d, SRP_OUT_OF_RANGE, OPEN, too_large[i] + 2, 1);
    free(d);
}

/* ---- Serials -------------------------------------------------------------------------------- */

static uint8_t *entry_at(struct desk *d, unsigned i, unsigned t, unsigned e)
{
    return d->memory + SRP_ROW_AT(i, t) + SRP_ROW_ENTRIES + SRP_ENTRY_BYTES * e;
}

static uint64_t last_serial(const struct desk *d, unsigned i)
{
    return srp_read8(d->memory + SRP_STATION_AT(i) + SRP_STATION_SERIAL);
}

static uint64_t packet_serial(const struct desk *d, unsigned k)
{
    return srp_read8(d->memory + SRP_PACKET_AT(k) + SRP_PACKET_SERIAL);
}

static uint64_t entry_serial(struct desk *d, unsigned i, unsigned t, unsigned e)
{
    return srp_read8(entry_at(d, i, t, e) + SRP_ENTRY_SERIAL);
}

static void put_last_serial(struct desk *d, unsigned i, uint64_t serial)
{
    put(d->memory + SRP_STATION_AT(i) + SRP_STATION_SERIAL, 8, serial);
}

static void put_packet_serial(struct desk *d, unsigned k, uint64_t serial)
{
    put(d->memory + SRP_PACKET_AT(k) + SRP_PACKET_SERIAL, 8, serial);
}

static void put_entry_serial(struct desk *d, unsigned i, unsigned t, unsigned e, uint64_t serial)
{
    put(entry_at(d, i, t, e) + SRP_ENTRY_SERIAL, 8, serial);
}

/* The only packet in the air: an error. */
static void put_error(struct desk *d, unsigned sender, unsigned receiver, unsigned mask, uint64_t serial)
{
    uint8_t *packet = d->memory + SRP_PACKET_AT(0);

    memset(packet, 0, SRP_PACKET_BYTES * SRP_MAX_PACKETS);
    d->memory[SRP_AIR_AT] = 1;
    packet[SRP_PACKET_SENDER] = (uint8_t)sender;
    packet[SRP_PACKET_RECEIVER] = (uint8_t)receiver;
    packet[SRP_PACKET_KIND] = SRP_ERROR;
    put(packet + SRP_PACKET_MASK, 2, mask);
    put(packet + SRP_PACKET_SERIAL, 8, serial);
}

/* A call that is accepted with this result and leaves memory in range with nothing in its free places. */
static void check_done(int line, struct desk *d, struct call c, uint64_t wanted)
{
    check_eq(line, "the result", call_on(d, c, LENT, OUT), wanted);
    check_left(line, d);
}

#define CHECK_DONE(d, answer, count, ...) check_done(__LINE__, (d), (struct call){__VA_ARGS__}, result((answer), (count)))

/* 01's example where each station has sent before. Every sending takes its sender's next serial, and nothing else takes one. */
static void test_serials(void)
{
    const uint64_t first[3] = {0x1122334455667788u, 0xfedcba98u, UINT64_MAX - 1};
    struct desk *d = opened(3, 1);

    for (unsigned i = 0; i < 3; i++)
        put_last_serial(d, i, first[i]);
    play(d, example, 0, 2);
    CHECK_EQ(last_serial(d, 1), first[1]);
    play(d, example, 2, 3);
    CHECK_EQ(last_serial(d, 2), UINT64_MAX);
    CHECK_EQ(packet_serial(d, 0), UINT64_MAX);
    /* A broadcast: one serial for both copies. */
    play(d, example, 3, 4);
    CHECK_EQ(last_serial(d, 1), first[1] + 1);
    CHECK_EQ(packet_serial(d, 0), first[1] + 1);
    CHECK_EQ(packet_serial(d, 1), first[1] + 1);
    play(d, example, 4, 6);
    CHECK_EQ(last_serial(d, 0), first[0] + 1);
    CHECK_EQ(packet_serial(d, 0), first[0] + 1);
    /* The entry has the serial of the reply that came, the reply that is passed on the next one of its sender. */
    play(d, example, 6, 7);
    CHECK_EQ(entry_serial(d, 1, 0, 0), first[0] + 1);
    CHECK_EQ(last_serial(d, 1), first[1] + 2);
    CHECK_EQ(packet_serial(d, 0), first[1] + 2);
    play(d, example, 7, EXAMPLE);
    CHECK_EQ(entry_serial(d, 2, 0, 0), first[1] + 2);
    CHECK_DONE(d, 0, 0, SRP_EVENT_UP, 0, 2);
    CHECK_DONE(d, 0, 0, SRP_EVENT_EXPIRE, 2, 0);
    CHECK_EQ(last_serial(d, 0), first[0] + 1);
    CHECK_EQ(last_serial(d, 1), first[1] + 2);
    CHECK_EQ(last_serial(d, 2), UINT64_MAX);
    free(d);
}

/* Four stations in a line: 0 has a route to 3 over the others, and 3 one to 0. */
static struct desk *line_of_four(void)
{
    static const struct step steps[] = {
        {{SRP_EVENT_UP, 0, 1}, 0, 0, 0},        {{SRP_EVENT_UP, 1, 2}, 0, 0, 0},        {{SRP_EVENT_UP, 2, 3}, 0, 0, 0},
        {{SRP_EVENT_SOLICIT, 0, 3}, 0, 1, 1},   {{SRP_EVENT_DELIVER, 0, 0}, 103, 2, 2}, {{SRP_EVENT_LOSE, 0, 0}, 0, 0, 1},
        {{SRP_EVENT_DELIVER, 0, 0}, 103, 2, 2}, {{SRP_EVENT_LOSE, 0, 0}, 0, 0, 1},      {{SRP_EVENT_DELIVER, 0, 0}, 102, 1, 1},
        {{SRP_EVENT_DELIVER, 0, 0}, 115, 1, 1}, {{SRP_EVENT_DELIVER, 0, 0}, 115, 1, 1}, {{SRP_EVENT_DELIVER, 0, 0}, 115, 0, 0},
        {{SRP_EVENT_SOLICIT, 3, 0}, 0, 1, 1},   {{SRP_EVENT_DELIVER, 0, 0}, 103, 2, 2}, {{SRP_EVENT_LOSE, 1, 0}, 0, 0, 1},
        {{SRP_EVENT_DELIVER, 0, 0}, 103, 2, 2}, {{SRP_EVENT_LOSE, 1, 0}, 0, 0, 1},      {{SRP_EVENT_DELIVER, 0, 0}, 102, 1, 1},
        {{SRP_EVENT_DELIVER, 0, 0}, 115, 1, 1}, {{SRP_EVENT_DELIVER, 0, 0}, 115, 1, 1}, {{SRP_EVENT_DELIVER, 0, 0}, 115, 0, 0},
    };
    struct desk *d = opened(4, 1);

    play(d, steps, 0, sizeof steps / sizeof *steps);
    CHECK_EQ(last_serial(d, 0), 2);
    CHECK_EQ(last_serial(d, 1), 4);
    CHECK_EQ(last_serial(d, 2), 4);
    CHECK_EQ(last_serial(d, 3), 2);
    return d;
}

/* Down of 1 and 2: 1 tells 0, 2 tells 3, each with its next serial. The entries leave whatever their serials. */
static void check_down(unsigned a, unsigned b)
{
    struct desk *d = line_of_four();
    unsigned first = a == 1 ? 0 : 1;

    put_entry_serial(d, 1, 3, 0, UINT64_MAX);
    put_last_serial(d, 1, 70);
    put_last_serial(d, 2, 80);
    CHECK_DONE(d, 0, 2, SRP_EVENT_DOWN, a, b);
    CHECK_EQ(d->memory[SRP_ROW_AT(1, 3) + SRP_ROW_COUNT], 0);
    CHECK_EQ(d->memory[SRP_PACKET_AT(first) + SRP_PACKET_SENDER], 1);
    CHECK_EQ(packet_serial(d, first), 71);
    CHECK_EQ(packet_serial(d, 1 - first), 81);
    CHECK_EQ(last_serial(d, 1), 71);
    CHECK_EQ(last_serial(d, 2), 81);
    free(d);
}

/* 13 by a, by b and by both, before 7 and after 3. The last serial of another station is not asked. */
static void check_down_used_up(unsigned a, unsigned b)
{
    struct desk *d = line_of_four();

    put_last_serial(d, 0, UINT64_MAX);
    put_last_serial(d, 3, UINT64_MAX);
    put_last_serial(d, 1, UINT64_MAX);
    CHECK_REFUSED(d, SRP_SERIALS_USED_UP, SRP_EVENT_DOWN, a, b);
    put_last_serial(d, 2, UINT64_MAX);
    CHECK_REFUSED(d, SRP_SERIALS_USED_UP, SRP_EVENT_DOWN, a, b);
    put_last_serial(d, 1, UINT64_MAX - 1);
    CHECK_REFUSED(d, SRP_SERIALS_USED_UP, SRP_EVENT_DOWN, a, b);
    d->memory[SRP_LINK_AT(1, 2)] = 0;
    CHECK_REFUSED(d, SRP_LINK_ALREADY, SRP_EVENT_DOWN, a, b);
    d->memory[SRP_LINK_AT(1, 2)] = 1;
    put_error(d, 0, 1, 0, 0);
    fill_air(d, SRP_MAX_PACKETS);
    CHECK_REFUSED(d, SRP_SERIALS_USED_UP, SRP_EVENT_DOWN, a, b);
    put_last_serial(d, 2, UINT64_MAX - 1);
    CHECK_REFUSED(d, SRP_AIR_FULL, SRP_EVENT_DOWN, a, b);
    CHECK_DONE(d, 0, 0, SRP_EVENT_LOSE, 0, 0);
    CHECK_DONE(d, 0, 0, SRP_EVENT_LOSE, 0, 0);
    CHECK_DONE(d, 0, 2, SRP_EVENT_DOWN, a, b);
    CHECK_EQ(last_serial(d, 1), UINT64_MAX);
    CHECK_EQ(last_serial(d, 2), UINT64_MAX);
    free(d);
}

static void test_serials_of_down(void)
{
    struct desk *d = line_of_four();

    check_down(1, 2);
    check_down(2, 1);
    check_down_used_up(1, 2);
    check_down_used_up(2, 1);

    /* Where no row is emptied nobody sends. */
    for (unsigned i = 0; i < 4; i++)
        put_last_serial(d, i, UINT64_MAX);
    CHECK_DONE(d, 0, 0, SRP_EVENT_EXPIRE, 1, 3);
    CHECK_DONE(d, 0, 0, SRP_EVENT_EXPIRE, 2, 0);
    CHECK_DONE(d, 0, 0, SRP_EVENT_DOWN, 1, 2);
    CHECK_EQ(last_serial(d, 1), UINT64_MAX);
    CHECK_EQ(last_serial(d, 2), UINT64_MAX);
    free(d);
}

/* An end of the line goes: it has no other neighbour and sends nothing. 2 tells 1, and 1 tells 0 and 2, with one serial. */
static void test_serials_of_errors(void)
{
    struct desk *d = line_of_four();

    put_last_serial(d, 3, UINT64_MAX);
    CHECK_DONE(d, 0, 1, SRP_EVENT_DOWN, 3, 2);
    CHECK_EQ(last_serial(d, 3), UINT64_MAX);
    CHECK_EQ(packet_serial(d, 0), 5);
    put_last_serial(d, 1, 9);
    CHECK_DONE(d, SRP_ERROR_EMPTIED, 2, SRP_EVENT_DELIVER, 0, 0);
    CHECK_EQ(last_serial(d, 1), 10);
    CHECK_EQ(packet_serial(d, 0), 10);
    CHECK_EQ(packet_serial(d, 1), 10);
    free(d);
}

/* A broadcast to no up neighbour takes no serial, and so there may be none left. */
static void test_serials_of_nobody(void)
{
    for (unsigned used_up = 0; used_up < 2; used_up++) {
        uint64_t serial = used_up ? UINT64_MAX : 5;
        struct desk *d = opened(3, 1);

        put_last_serial(d, 0, serial);
        CHECK_DONE(d, 0, 0, SRP_EVENT_SOLICIT, 0, 1);
        CHECK_STATION(d, 0, 1, 1, 1, serial);
        free(d);

        /* A request sent on. */
        d = example_after(3);
        d->memory[SRP_LINK_AT(0, 1)] = 0;
        d->memory[SRP_LINK_AT(1, 2)] = 0;
        put_last_serial(d, 1, serial);
        CHECK_DONE(d, SRP_REQUEST_SENT_ON, 0, SRP_EVENT_DELIVER, 0, 0);
        CHECK_EQ(last_serial(d, 1), serial);
        free(d);

        /* An error that empties a row, and the error of Down. */
        d = example_after(EXAMPLE);
        d->memory[SRP_LINK_AT(1, 2)] = 0;
        put_error(d, 1, 2, 1, 2);
        put_last_serial(d, 2, serial);
        CHECK_DONE(d, SRP_ERROR_EMPTIED, 0, SRP_EVENT_DELIVER, 0, 0);
        CHECK_EQ(last_serial(d, 2), serial);
        put_last_serial(d, 1, serial);
        CHECK_DONE(d, 0, 0, SRP_EVENT_DOWN, 1, 0);
        CHECK_EQ(last_serial(d, 1), serial);
        CHECK_EQ(d->memory[SRP_ROW_AT(1, 0) + SRP_ROW_COUNT], 0);
        free(d);
    }
}

/* A copy has the packet's serial, and its sender's last one stays, also where it is the last that there is. */
static void test_serials_of_copies(void)
{
    struct desk *d = example_after(3);

    put_packet_serial(d, 0, 0xa1a2a3a4a5a6a7a8u);
    put_last_serial(d, 2, UINT64_MAX);
    put_last_serial(d, 1, UINT64_MAX);
    CHECK_DONE(d, 0, 0, SRP_EVENT_DUPLICATE, 0, 0);
    CHECK_EQ(packet_serial(d, 1), 0xa1a2a3a4a5a6a7a8u);
    CHECK_EQ(last_serial(d, 1), UINT64_MAX);
    CHECK_EQ(last_serial(d, 2), UINT64_MAX);
    check_shown(d);
    CHECK_DONE(d, 0, 0, SRP_EVENT_LOSE, 0, 0);
    CHECK_EQ(packet_serial(d, 0), 0xa1a2a3a4a5a6a7a8u);
    free(d);
}

/* Station 3's row for 0 in the square has 1 and then 2. An error from 1 removes it where its serial is not lower than the entry's. */
static void check_error(uint64_t kept, uint64_t serial)
{
    bool removed = serial >= kept;
    struct desk *d = square_after(17);

    put_error(d, 1, 3, 1, serial);
    put_entry_serial(d, 3, 0, 0, kept);
    put_entry_serial(d, 3, 0, 1, 44);
    put_last_serial(d, 3, UINT64_MAX);
    check_preview(d, 0, OUT);
    CHECK_DONE(d, removed ? SRP_ERROR_NONE_EMPTIED : SRP_ERROR_NONE_REMOVED, 0, SRP_EVENT_DELIVER, 0, 0);
    CHECK_EQ(d->memory[SRP_ROW_AT(3, 0) + SRP_ROW_COUNT], removed ? 1 : 2);
    CHECK_EQ(entry_at(d, 3, 0, 0)[SRP_ENTRY_STATION], removed ? 2 : 1);
    CHECK_EQ(entry_serial(d, 3, 0, 0), removed ? 44 : kept);
    CHECK_EQ(entry_serial(d, 3, 0, 1), removed ? 0 : 44);

    /* As the only successor: then the row is emptied, and 3 tells 1 and 2. */
    d->memory[SRP_ROW_AT(3, 0) + SRP_ROW_COUNT] = 1;
    entry_at(d, 3, 0, 0)[SRP_ENTRY_STATION] = 1;
    put_entry_serial(d, 3, 0, 0, kept);
    put_error(d, 1, 3, 1, serial);
    check_preview(d, 0, OUT);
    if (removed)
        CHECK_REFUSED(d, SRP_SERIALS_USED_UP, SRP_EVENT_DELIVER, 0, 0);
    put_last_serial(d, 3, 0);
    check_preview(d, 0, OUT);
    CHECK_DONE(d, removed ? SRP_ERROR_EMPTIED : SRP_ERROR_NONE_REMOVED, removed ? 2 : 0, SRP_EVENT_DELIVER, 0, 0);
    CHECK_EQ(d->memory[SRP_ROW_AT(3, 0) + SRP_ROW_COUNT], removed ? 0 : 1);
    CHECK_EQ(entry_serial(d, 3, 0, 0), removed ? 0 : kept);
    CHECK_EQ(last_serial(d, 3), removed);
    free(d);
}

static void test_late_errors(void)
{
    /* Equal, next to each other, and apart in one byte or half alone. */
    static const uint64_t serials[] = {
        0, 1, 2, 255, 256, 0x7fffffff, 0x80000000u, 0xffffffffu, 0x100000000u, 0x100000001u, 0x200000000u, 0x7fffffffffffffffu,
        0x8000000000000000u, UINT64_MAX - 1, UINT64_MAX,
    };
    const size_t count = sizeof serials / sizeof *serials;

    for (size_t i = 0; i < count; i++)
        for (size_t k = 0; k < count; k++)
            check_error(serials[i], serials[k]);
}

/*
 * An error for some destinations whose serial is lower than some of the entries'. Station 1 of 16 has successor 0 for 2 to 6, and 2 besides
 * for 4; 3 is not masked. What is removed and what is emptied go by the entries that leave.
 */
static void check_mixed_error(const uint64_t *kept, uint64_t serial, uint32_t answer, unsigned mask)
{
    struct desk *d = opened(16, 1);

    CHECK_EQ(call_on(d, (struct call){SRP_EVENT_UP, 1, 5}, LENT, OUT), SRP_DONE);
    CHECK_EQ(call_on(d, (struct call){SRP_EVENT_UP, 7, 1}, LENT, OUT), SRP_DONE);
    for (unsigned t = 2; t <= 6; t++) {
        put_successors(d->memory, 1, t, t == 4 ? 2 : 1);
        put_entry_serial(d, 1, t, 0, kept[t - 2]);
    }
    put_error(d, 0, 1, 1u << 2 | 1u << 4 | 1u << 5 | 1u << 6, serial);
    CHECK_PREVIEW(d, 0, answer, mask ? 2 : 0, 0, 0, 0, 0, mask);
    CHECK_DONE(d, answer, mask ? 2 : 0, SRP_EVENT_DELIVER, 0, 0);
    for (unsigned t = 2; t <= 6; t++) {
        bool removed = t != 3 && serial >= kept[t - 2];

        CHECK_EQ(d->memory[SRP_ROW_AT(1, t) + SRP_ROW_COUNT], (t == 4 ? 2u : 1u) - removed);
    }
    CHECK_EQ(emptied(d->before, d->memory, 1), mask);
    if (mask) {
        CHECK_EQ(srp_read2(d->memory + SRP_PACKET_AT(0) + SRP_PACKET_MASK), mask);
        CHECK_EQ(srp_read2(d->memory + SRP_PACKET_AT(1) + SRP_PACKET_MASK), mask);
        CHECK_EQ(packet_serial(d, 0), 1);
        CHECK_EQ(packet_serial(d, 1), 1);
    }
    CHECK_EQ(last_serial(d, 1), mask ? 1 : 0);
    free(d);
}

static void test_mixed_errors(void)
{
    static const uint64_t kept[] = {10, 0, 20, 30, 40};

    check_mixed_error(kept, 9, SRP_ERROR_NONE_REMOVED, 0);
    check_mixed_error(kept, 10, SRP_ERROR_EMPTIED, 1u << 2);
    check_mixed_error(kept, 19, SRP_ERROR_EMPTIED, 1u << 2);
    check_mixed_error(kept, 29, SRP_ERROR_EMPTIED, 1u << 2);
    check_mixed_error(kept, 30, SRP_ERROR_EMPTIED, 1u << 2 | 1u << 5);
    check_mixed_error(kept, 40, SRP_ERROR_EMPTIED, 1u << 2 | 1u << 5 | 1u << 6);
    check_mixed_error((const uint64_t[]){30, 0, 20, 30, 30}, 20, SRP_ERROR_NONE_EMPTIED, 0);
    check_mixed_error((const uint64_t[]){30, 0, 20, 30, 30}, 30, SRP_ERROR_EMPTIED, 1u << 2 | 1u << 5 | 1u << 6);
}

/* A reply that replaces an entry or adds one leaves its own serial there, also a lower one. Other entries keep theirs. */
static void test_entry_serials(void)
{
    static const uint64_t serials[] = {0, 7, 99, 100, 101, UINT64_MAX};

    for (size_t k = 0; k < sizeof serials / sizeof *serials; k++) {
        struct desk *d = example_after(7);
        uint8_t *row = d->memory + SRP_ROW_AT(2, 0);

        put_label(d->memory + SRP_LABEL_AT(2, 0), 1, 2, 3);
        row[SRP_ROW_COUNT] = 2;
        for (unsigned e = 0; e < 2; e++) {
            entry_at(d, 2, 0, e)[SRP_ENTRY_STATION] = (uint8_t)(1 - e);
            put_label(entry_at(d, 2, 0, e) + SRP_ENTRY_LABEL, 3, 0, 1);
        }
        put_entry_serial(d, 2, 0, 0, 100);
        put_entry_serial(d, 2, 0, 1, 50);
        put_label(d->memory + SRP_PACKET_AT(0) + SRP_PACKET_LABEL, 2, 0, 1);
        put_packet_serial(d, 0, serials[k]);
        check_preview(d, 0, OUT);
        CHECK_EQ(srp_preview(d->memory, LENT, 0, d->out, OUT), result(SRP_REPLY_TAKEN, 0));
        CHECK_EQ(srp_read8(d->out + SRP_PREVIEW_ROW + SRP_ROW_ENTRIES + SRP_ENTRY_SERIAL), serials[k]);
        CHECK_DONE(d, SRP_REPLY_TAKEN, 0, SRP_EVENT_DELIVER, 0, 0);
        CHECK_EQ(row[SRP_ROW_COUNT], 2);
        CHECK_EQ(entry_at(d, 2, 0, 0)[SRP_ENTRY_STATION], 1);
        CHECK_LABEL(entry_at(d, 2, 0, 0) + SRP_ENTRY_LABEL, 2, 0, 1);
        CHECK_EQ(entry_serial(d, 2, 0, 0), serials[k]);
        CHECK_EQ(entry_serial(d, 2, 0, 1), 50);
        free(d);

        /* The first entry leaves, and the reply's is added. */
        d = example_after(7);
        row = d->memory + SRP_ROW_AT(2, 0);
        put_label(d->memory + SRP_LABEL_AT(2, 0), 1, 2, 3);
        row[SRP_ROW_COUNT] = 1;
        put_label(entry_at(d, 2, 0, 0) + SRP_ENTRY_LABEL, 1, 0, 1);
        put_entry_serial(d, 2, 0, 0, 100);
        put_label(d->memory + SRP_PACKET_AT(0) + SRP_PACKET_LABEL, 2, 0, 1);
        put_packet_serial(d, 0, serials[k]);
        CHECK_DONE(d, SRP_REPLY_TAKEN, 0, SRP_EVENT_DELIVER, 0, 0);
        CHECK_EQ(row[SRP_ROW_COUNT], 1);
        CHECK_EQ(entry_serial(d, 2, 0, 0), serials[k]);
        free(d);
    }
}

/* A reply that is not taken leaves the entry's serial. */
static void test_entry_serial_kept(void)
{
    struct desk *d = example_after(EXAMPLE);

    CHECK_EQ(call_on(d, (struct call){SRP_EVENT_SOLICIT, 2, 0}, LENT, OUT), result(SRP_DONE, 1));
    CHECK_EQ(call_on(d, (struct call){SRP_EVENT_DELIVER, 0, 0}, LENT, OUT), result(SRP_REQUEST_ANSWERED, 1));
    put_label(d->memory + SRP_PACKET_AT(0) + SRP_PACKET_LABEL, 1, 2, 3);
    put_packet_serial(d, 0, 77);
    CHECK_DONE(d, SRP_OWN_NOT_ABOVE, 0, SRP_EVENT_DELIVER, 0, 0);
    CHECK_EQ(entry_serial(d, 2, 0, 0), 2);
    free(d);
}

/*
 * After the example the link of 0 and 1 goes down and comes up again, and 2 gets a fresh route over 1 before 1's error arrives. The error and
 * its copy leave the route, and the error of the next time takes it.
 */
static void test_late_error(void)
{
    static const struct step steps[] = {
        {{SRP_EVENT_DOWN, 0, 1}, 0, 1, 1},      {{SRP_EVENT_UP, 0, 1}, 0, 0, 1},        {{SRP_EVENT_SOLICIT, 2, 0}, 0, 1, 2},
        {{SRP_EVENT_DELIVER, 1, 0}, 103, 2, 3}, {{SRP_EVENT_DELIVER, 1, 0}, 102, 1, 3}, {{SRP_EVENT_DELIVER, 1, 0}, 101, 0, 2},
        {{SRP_EVENT_DELIVER, 1, 0}, 115, 1, 2}, {{SRP_EVENT_DELIVER, 1, 0}, 115, 0, 1}, {{SRP_EVENT_DUPLICATE, 0, 0}, 0, 0, 2},
        {{SRP_EVENT_DELIVER, 0, 0}, 121, 0, 1}, {{SRP_EVENT_TRACE, 2, 0}, 131, 2, 1},   {{SRP_EVENT_DELIVER, 0, 0}, 121, 0, 0},
        {{SRP_EVENT_TRACE, 2, 0}, 131, 2, 0},   {{SRP_EVENT_DOWN, 0, 1}, 0, 1, 1},      {{SRP_EVENT_DELIVER, 0, 0}, 123, 1, 1},
        {{SRP_EVENT_TRACE, 2, 0}, 132, 0, 1},   {{SRP_EVENT_DELIVER, 0, 0}, 121, 0, 0},
    };
    struct desk *d = example_after(EXAMPLE);

    play(d, steps, 0, sizeof steps / sizeof *steps);
    free(d);
}

/* 13 of Solicit: after 2, 4 and 8, before 7, and only with a neighbour. One serial less is taken. */
static void test_solicit_used_up(void)
{
    struct desk *d = example_after(3);

    put_last_serial(d, 0, UINT64_MAX);
    put_last_serial(d, 2, UINT64_MAX);
    CHECK_REFUSED(d, SRP_SERIALS_USED_UP, SRP_EVENT_SOLICIT, 0, 1);
    CHECK_REFUSED(d, SRP_NO_STATION, SRP_EVENT_SOLICIT, 0, 3);
    CHECK_REFUSED(d, SRP_NO_STATION, SRP_EVENT_SOLICIT, 0, 0);
    CHECK_REFUSED(d, SRP_IS_ACTIVE, SRP_EVENT_SOLICIT, 2, 1);
    put(d->memory + SRP_STATION_AT(0) + SRP_STATION_NUMBER, 4, UINT32_MAX);
    CHECK_REFUSED(d, SRP_NUMBERS_USED_UP, SRP_EVENT_SOLICIT, 0, 1);
    put(d->memory + SRP_STATION_AT(0) + SRP_STATION_NUMBER, 4, UINT32_MAX - 1);
    CHECK_REFUSED(d, SRP_SERIALS_USED_UP, SRP_EVENT_SOLICIT, 0, 1);
    fill_air(d, SRP_MAX_PACKETS);
    CHECK_REFUSED(d, SRP_SERIALS_USED_UP, SRP_EVENT_SOLICIT, 0, 1);
    put_last_serial(d, 0, UINT64_MAX - 1);
    CHECK_REFUSED(d, SRP_AIR_FULL, SRP_EVENT_SOLICIT, 0, 1);
    CHECK_DONE(d, 0, 0, SRP_EVENT_LOSE, 0, 0);
    CHECK_DONE(d, 0, 1, SRP_EVENT_SOLICIT, 0, 1);
    CHECK_EQ(last_serial(d, 0), UINT64_MAX);
    CHECK_EQ(packet_serial(d, SRP_MAX_PACKETS - 1), UINT64_MAX);
    put(d->memory + SRP_STATION_AT(0) + SRP_STATION_NUMBER, 4, 1);
    CHECK_DONE(d, 0, 0, SRP_EVENT_GIVE_UP, 0, 0);
    CHECK_REFUSED(d, SRP_SERIALS_USED_UP, SRP_EVENT_SOLICIT, 0, 1);
    CHECK_DONE(d, 0, 0, SRP_EVENT_DOWN, 0, 1);
    CHECK_DONE(d, 0, 0, SRP_EVENT_SOLICIT, 0, 1);
    CHECK_EQ(last_serial(d, 0), UINT64_MAX);
    free(d);
}

/*
 * 13 of Deliver and of its preview, whose 12 comes after it; where the receiver would not send, or has one serial left, it is not given. The
 * desk is freed.
 */
static void check_deliver_used_up(int line, struct desk *d, size_t k, uint32_t answer, uint32_t count)
{
    unsigned long failures = tally.failures;
    unsigned i = d->memory[SRP_PACKET_AT(k) + SRP_PACKET_RECEIVER];
    uint8_t *network = copied(d->memory, LENT);

    put_last_serial(d, i, UINT64_MAX);
    check_previews(d);
    if (count) {
        check_refused(line, d, (struct call){SRP_EVENT_DELIVER, k, 0}, LENT, OUT, SRP_SERIALS_USED_UP);
        check_refused(line, d, (struct call){PREVIEW, k, 0}, LENT, OUT, SRP_SERIALS_USED_UP);
        check_refused(line, d, (struct call){PREVIEW, k, 0}, LENT, 0, SRP_SERIALS_USED_UP);
        check_refused(line, d, (struct call){SRP_EVENT_DELIVER, d->memory[SRP_AIR_AT], 0}, LENT, OUT, SRP_NO_PACKET);
        put_last_serial(d, i, UINT64_MAX - 1);
        check_previews(d);
    }
    check_done(line, d, (struct call){SRP_EVENT_DELIVER, k, 0}, result(answer, count));
    CHECK_EQ(last_serial(d, i), UINT64_MAX);
    for (unsigned j = 0; j < d->memory[SRP_N_AT]; j++)
        if (j != i)
            CHECK_SAME(d->memory + SRP_STATION_AT(j), network + SRP_STATION_AT(j), SRP_STATION_BYTES);
    for (unsigned air = d->memory[SRP_AIR_AT], at = air < count ? 0 : air - count; at < air; at++)
        CHECK_EQ(packet_serial(d, at), UINT64_MAX);
    if (tally.failures != failures)
        fprintf(stderr, "    at line %d\n", line);
    free(network);
    free(d);
}

#define CHECK_DELIVER_USED_UP(d, k, answer, count) check_deliver_used_up(__LINE__, (d), (k), (answer), (count))

/* The reply that 0 sends to 1 in the example, with this label; 1 has the label (1, 1/2), and the successor 0 or none. */
static struct desk *reply_at_1(uint64_t s, uint32_t m, uint32_t denominator, unsigned successors)
{
    struct desk *d = example_after(6);
    uint8_t *row = d->memory + SRP_ROW_AT(1, 0);

    put_label(d->memory + SRP_LABEL_AT(1, 0), 1, 1, 2);
    row[SRP_ROW_COUNT] = (uint8_t)successors;
    put_label(row + SRP_ROW_ENTRIES + SRP_ENTRY_LABEL, 1, 0, 1);
    put_label(d->memory + SRP_PACKET_AT(0) + SRP_PACKET_LABEL, s, m, denominator);
    return d;
}

static void test_deliver_used_up(void)
{
    struct desk *d = example_after(3);

    CHECK_DELIVER_USED_UP(d, 0, SRP_REQUEST_SENT_ON, 2);
    d = example_after(4);
    CHECK_DELIVER_USED_UP(d, 0, SRP_REQUEST_ANSWERED, 1);
    d = example_after(4);
    CHECK_DELIVER_USED_UP(d, 1, SRP_REQUEST_KNOWN, 0); /* its source */
    d = example_after(3);
    CHECK_DONE(d, 0, 0, SRP_EVENT_DUPLICATE, 0, 0);
    CHECK_DONE(d, SRP_REQUEST_SENT_ON, 2, SRP_EVENT_DELIVER, 0, 0);
    CHECK_DELIVER_USED_UP(d, 0, SRP_REQUEST_KNOWN, 0); /* the copy */
    /* The destination with the reset bit: it replies, or its sequence number cannot rise. */
    d = example_after(4);
    d->memory[SRP_PACKET_AT(0) + SRP_PACKET_RESET] = 1;
    put_label(d->memory + SRP_PACKET_AT(0) + SRP_PACKET_LABEL, UINT64_MAX - 1, 0, 1);
    CHECK_DELIVER_USED_UP(d, 0, SRP_REQUEST_ANSWERED, 1);
    d = example_after(4);
    d->memory[SRP_PACKET_AT(0) + SRP_PACKET_RESET] = 1;
    put_label(d->memory + SRP_PACKET_AT(0) + SRP_PACKET_LABEL, UINT64_MAX, 0, 1);
    CHECK_DELIVER_USED_UP(d, 0, SRP_REQUEST_NOT_ANSWERED, 0);
    /* A station with a route answers. */
    d = square_after(13);
    CHECK_DELIVER_USED_UP(d, 0, SRP_REQUEST_ANSWERED, 1);

    /* A reply: it is passed on after 112, 114 and 115, but not at the source, not without a route, and not twice. */
    d = example_after(6);
    CHECK_DELIVER_USED_UP(d, 0, SRP_REPLY_TAKEN, 1);
    CHECK_DELIVER_USED_UP(reply_at_1(1, 2, 3, 1), 0, SRP_OWN_NOT_ABOVE, 1);
    CHECK_DELIVER_USED_UP(reply_at_1(1, 2, 3, 0), 0, SRP_OWN_NOT_ABOVE, 0);
    CHECK_DELIVER_USED_UP(reply_at_1(2, 1, UINT32_MAX, 1), 0, SRP_DOES_NOT_FIT, 1);
    CHECK_DELIVER_USED_UP(reply_at_1(2, 1, UINT32_MAX, 0), 0, SRP_DOES_NOT_FIT, 0);
    CHECK_DELIVER_USED_UP(reply_at_1(2, 0, 1, 1), 0, SRP_REPLY_TAKEN, 1);
    d = reply_at_1(2, 0, 1, 1);
    d->memory[SRP_RECORD_AT(1, 2) + SRP_RECORD_PASSED] = 1;
    CHECK_DELIVER_USED_UP(d, 0, SRP_REPLY_TAKEN, 0);
    d = reply_at_1(1, 0, 1, 1);
    put_label(d->memory + SRP_RECORD_AT(1, 2) + SRP_RECORD_CACHED, 1, 0, 1);
    CHECK_DELIVER_USED_UP(d, 0, SRP_CACHED_NOT_ABOVE, 0);
    d = reply_at_1(1, 0, 1, 1);
    d->memory[SRP_LINK_AT(1, 2)] = 0;
    CHECK_DELIVER_USED_UP(d, 0, SRP_REPLY_TAKEN, 0);
    d = example_after(7);
    CHECK_DELIVER_USED_UP(d, 0, SRP_REPLY_TAKEN, 0);
    d = example_after(7);
    put(d->memory + SRP_PACKET_AT(0) + SRP_PACKET_NUMBER, 4, 2);
    CHECK_DELIVER_USED_UP(d, 0, SRP_REPLY_UNASKED, 0);
    d = example_after(7);
    d->memory[SRP_PACKET_AT(0) + SRP_PACKET_RECEIVER] = 0;
    CHECK_DELIVER_USED_UP(d, 0, SRP_REPLY_UNASKED, 0); /* its destination */

    /* An error: station 3 of the square has another successor, or none. */
    d = square_after(18);
    CHECK_DELIVER_USED_UP(d, 0, SRP_ERROR_NONE_EMPTIED, 0);
    d = square_after(18);
    d->memory[SRP_ROW_AT(3, 0) + SRP_ROW_COUNT] = 1;
    CHECK_DELIVER_USED_UP(d, 0, SRP_ERROR_EMPTIED, 2);
    d = square_after(18);
    d->memory[SRP_ROW_AT(3, 0) + SRP_ROW_COUNT] = 0;
    CHECK_DELIVER_USED_UP(d, 0, SRP_ERROR_NONE_REMOVED, 0);
}

/* Packet 0, whose receiver i would send, where the air is full and i has no serial left: 13 before 7, of Deliver and its preview; and draining loses
 * each packet that is answered so. */
static void check_full_and_used_up(int line, struct desk *d, unsigned i)
{
    const struct call deliver = {SRP_EVENT_DELIVER, 0, 0}, preview = {PREVIEW, 0, 0};

    fill_air(d, SRP_MAX_PACKETS);
    check_refused(line, d, deliver, LENT, OUT, SRP_AIR_FULL);
    put_last_serial(d, i, UINT64_MAX);
    check_refused(line, d, deliver, LENT, OUT, SRP_SERIALS_USED_UP);
    check_refused(line, d, preview, LENT, OUT, SRP_SERIALS_USED_UP);
    check_drain(line, d, 0, SRP_MAX_PACKETS);
    free(d);
}

/* A request that station 1 sends on, and an error that empties a row of station 3, which has two neighbours. */
static void test_full_and_used_up(void)
{
    struct desk *d;

    check_full_and_used_up(__LINE__, example_after(3), 1);
    d = square_after(18);
    d->memory[SRP_ROW_AT(3, 0) + SRP_ROW_COUNT] = 1;
    check_full_and_used_up(__LINE__, d, 3);
}

/* 01's example from its request on. The request is lost at 1, or sent on and lost at 0, or its reply is lost at 1. */
static void test_drain_used_up(void)
{
    struct desk *d = example_after(3);

    put_last_serial(d, 1, UINT64_MAX);
    check_drain(__LINE__, d, 0, 1);
    free(d);
    d = example_after(3);
    put_last_serial(d, 0, UINT64_MAX);
    check_drain(__LINE__, d, 2, 1);
    CHECK_EQ(last_serial(d, 1), 1);
    free(d);
    d = example_after(3);
    put_last_serial(d, 1, UINT64_MAX - 1);
    check_drain(__LINE__, d, 3, 1);
    CHECK_EQ(last_serial(d, 0), 1);
    CHECK_EQ(d->memory[SRP_ROW_AT(1, 0) + SRP_ROW_COUNT], 0);
    free(d);
    /* A full air, of which one is lost since it has no room, then what station 0 would answer. */
    d = example_after(3);
    fill_air(d, SRP_MAX_PACKETS);
    put_last_serial(d, 0, UINT64_MAX);
    check_drain(__LINE__, d, 128, 2);
    free(d);
}

/* ---- Air limits ------------------------------------------------------------------------------ */

/* Open that is turned down leaves every byte. */
static void check_open(int line, struct desk *d, size_t length, size_t n, uint64_t start, size_t limit, uint32_t number)
{
    memcpy(d->before, d->memory, LENT);
    check_eq(line, "the refusal", srp_open(d->memory, length, n, start, limit), number);
    check_same(line, "memory", d->memory, d->before, LENT);
}

/* Limits that are over 128, some of them not in 7, 8, 16 or 32 bits. */
static const size_t high_limits[] = {
    129, 130, 255, 256, 256 + 128, 65536, (size_t)1 << 32, ((size_t)1 << 32) + 128, SIZE_MAX - 127, SIZE_MAX,
};

/* Every limit that there is, and 14 above; 1 comes before it. */
static void test_limits(void)
{
    uint8_t *wanted = allocated(SRP_LENGTH);
    struct desk *d;

    for (unsigned limit = 0; limit <= SRP_MAX_PACKETS; limit++) {
        d = opened_under(4, 7, limit);
        fresh(wanted, 4, 7, limit);
        CHECK_SAME(d->memory, wanted, SRP_LENGTH);
        CHECK_EQ(srp_limit(d->memory, LENT), result(SRP_DONE, limit));
        check_left(__LINE__, d);
        free(d);
    }
    d = example_after(3);
    for (size_t k = 0; k < sizeof high_limits / sizeof *high_limits; k++) {
        size_t limit = high_limits[k];

        check_open(__LINE__, d, LENT, 3, 1, limit, SRP_LIMIT_TOO_HIGH);
        check_open(__LINE__, d, SRP_LENGTH, 16, UINT64_MAX, limit, SRP_LIMIT_TOO_HIGH);
        check_open(__LINE__, d, SRP_LENGTH - 1, 3, 1, limit, SRP_OUT_OF_RANGE);
        check_open(__LINE__, d, 0, 3, 1, limit, SRP_OUT_OF_RANGE);
        check_open(__LINE__, d, LENT, 1, 1, limit, SRP_OUT_OF_RANGE);
        check_open(__LINE__, d, LENT, 17, 1, limit, SRP_OUT_OF_RANGE);
        check_open(__LINE__, d, LENT, 3, 0, limit, SRP_OUT_OF_RANGE);
    }
    free(d);
    free(wanted);
}

/* Under the limit 0 whatever would send is turned down, and nothing else is. */
static void test_limit_zero(void)
{
    struct desk *d = opened_under(3, 1, 0);

    CHECK_DONE(d, 0, 0, SRP_EVENT_SOLICIT, 0, 1); /* no neighbour */
    CHECK_STATION(d, 0, 1, 1, 1, 0);
    CHECK_DONE(d, 0, 0, SRP_EVENT_GIVE_UP, 0, 0);
    CHECK_DONE(d, 0, 0, SRP_EVENT_UP, 0, 1);
    CHECK_REFUSED(d, SRP_AIR_FULL, SRP_EVENT_SOLICIT, 0, 1);
    CHECK_REFUSED(d, SRP_AIR_FULL, SRP_EVENT_SOLICIT, 1, 2);
    CHECK_STATION(d, 0, 1, 1, 0, 0);
    CHECK_DONE(d, 0, 0, SRP_EVENT_SOLICIT, 2, 0);
    CHECK_REFUSED(d, SRP_IS_ACTIVE, SRP_EVENT_SOLICIT, 2, 0);
    CHECK_REFUSED(d, SRP_NO_STATION, SRP_EVENT_SOLICIT, 0, 3);
    CHECK_REFUSED(d, SRP_NO_PACKET, SRP_EVENT_DELIVER, 0, 0);
    CHECK_REFUSED(d, SRP_NO_PACKET, SRP_EVENT_DUPLICATE, 0, 0);
    CHECK_REFUSED(d, SRP_NO_PACKET, PREVIEW, 0, 0);
    put_last_serial(d, 0, UINT64_MAX);
    CHECK_REFUSED(d, SRP_SERIALS_USED_UP, SRP_EVENT_SOLICIT, 0, 1);
    put(d->memory + SRP_STATION_AT(0) + SRP_STATION_NUMBER, 4, UINT32_MAX);
    CHECK_REFUSED(d, SRP_NUMBERS_USED_UP, SRP_EVENT_SOLICIT, 0, 1);
    check_drain(__LINE__, d, 0, 0);
    CHECK_DONE(d, 0, 0, SRP_EVENT_DOWN, 1, 0);
    CHECK_DONE(d, 0, 0, SRP_EVENT_EXPIRE, 1, 0);
    CHECK_DONE(d, SRP_TRACE_NO_SUCCESSOR, 0, SRP_EVENT_TRACE, 1, 0);
    CHECK_EQ(srp_limit(d->memory, LENT), result(SRP_DONE, 0));
    check_shown(d);
    free(d);
}

/* 01's example has two packets in the air at most. Under that limit it goes the same way; under one less its first two do not get there. */
static void test_limit_reached(void)
{
    struct desk *d = example_after(EXAMPLE), *again = example_under(EXAMPLE, 2);

    CHECK_EQ(again->memory[SRP_LIMIT_AT], 2);
    again->memory[SRP_LIMIT_AT] = SRP_MAX_PACKETS;
    CHECK_SAME(again->memory, d->memory, SRP_LENGTH);
    free(again);
    free(d);

    d = example_under(3, 1);
    CHECK_REFUSED(d, SRP_AIR_FULL, SRP_EVENT_DELIVER, 0, 0);
    CHECK_REFUSED(d, SRP_AIR_FULL, PREVIEW, 0, 0);
    CHECK_REFUSED(d, SRP_AIR_FULL, SRP_EVENT_DUPLICATE, 0, 0);
    CHECK_DONE(d, 0, 0, SRP_EVENT_DOWN, 0, 1);
    CHECK_PREVIEW(d, 0, SRP_REQUEST_SENT_ON, 1, 0, 1, 1, 0, 0); /* to 2 alone, in the place of what is delivered */
    CHECK_DONE(d, SRP_REQUEST_SENT_ON, 1, SRP_EVENT_DELIVER, 0, 0);
    CHECK_DONE(d, SRP_REQUEST_KNOWN, 0, SRP_EVENT_DELIVER, 0, 0);
    free(d);
    d = example_under(2, 0);
    CHECK_REFUSED(d, SRP_AIR_FULL, SRP_EVENT_SOLICIT, 2, 0);
    free(d);

    /* A reply that is passed on takes the place of the one that came. */
    d = example_under(6, 2);
    fill_air(d, 2);
    CHECK_PREVIEW(d, 0, SRP_REPLY_TAKEN, 1, 1, 1, 2, 1, 0);
    CHECK_DONE(d, SRP_REPLY_TAKEN, 1, SRP_EVENT_DELIVER, 0, 0);
    CHECK_EQ(d->memory[SRP_AIR_AT], 2);
    free(d);
}

/* Every value of the limit's byte, with 5 packets in the air: what is turned down, and what a network in range keeps. */
static void test_limit_values(void)
{
    struct desk *d = square_after(SQUARE);
    uint8_t *network = copied(d->memory, LENT);

    for (unsigned limit = 0; limit < 256; limit++) {
        unsigned long failures = tally.failures;

        memcpy(d->memory, network, LENT);
        d->memory[SRP_LIMIT_AT] = (uint8_t)limit;
        if (limit < 5 || limit > SRP_MAX_PACKETS) {
            check_out_of_range(__LINE__, d, LENT);
        } else {
            CHECK_EQ(srp_limit(d->memory, LENT), result(SRP_DONE, limit));
            if (limit == 5) {
                CHECK_REFUSED(d, SRP_AIR_FULL, SRP_EVENT_DUPLICATE, 0, 0);
            } else {
                CHECK_DONE(d, 0, 0, SRP_EVENT_DUPLICATE, 0, 0);
                CHECK_EQ(d->memory[SRP_AIR_AT], 6);
            }
            CHECK_EQ(d->memory[SRP_LIMIT_AT], limit);
        }
        if (tally.failures != failures)
            fprintf(stderr, "    with limit %u\n", limit);
    }
    free(network);
    free(d);
}

/* Draining loses what has no room under the limit. */
static void test_drain_limited(void)
{
    struct desk *d = example_under(3, 1);

    check_drain(__LINE__, d, 0, 1);
    free(d);
    d = example_under(3, 2);
    check_drain(__LINE__, d, 5, 0);
    CHECK_EQ(srp_trace(d->memory, LENT, 2, 0), result(SRP_TRACE_ARRIVED, 2));
    free(d);
    d = example_under(3, 9);
    fill_air(d, 9);
    check_drain(__LINE__, d, 12, 1);
    free(d);
    /* Errors: Down of 3 and 2 sends one, to 1, which would tell 0 and 2. */
    for (unsigned limit = 0; limit < 3; limit++) {
        d = line_of_four();
        d->memory[SRP_LIMIT_AT] = (uint8_t)limit;
        if (limit == 0) {
            CHECK_REFUSED(d, SRP_AIR_FULL, SRP_EVENT_DOWN, 3, 2);
        } else {
            CHECK_DONE(d, 0, 1, SRP_EVENT_DOWN, 3, 2);
            check_drain(__LINE__, d, limit == 1 ? 0 : 4, limit == 1);
        }
        free(d);
    }
}

/* ---- Runs ------------------------------------------------------------------------------------ */

#define UNUSED_LINE 0xa5a5a5a5a5a5a5a5u

/* Events in arrays of their own. */
struct events {
    uint8_t *kinds, *operands;
    size_t count, operands_length;
};

static struct events no_events(size_t count)
{
    struct events e = {allocated(count), allocated(2 * count), count, 2 * count};

    return e;
}

static struct events events_of(const struct step *steps, size_t count)
{
    struct events e = no_events(count);

    for (size_t k = 0; k < count; k++) {
        e.kinds[k] = (uint8_t)steps[k].call.kind;
        e.operands[2 * k] = (uint8_t)steps[k].call.a;
        e.operands[2 * k + 1] = (uint8_t)steps[k].call.b;
    }
    return e;
}

static void free_events(struct events e)
{
    free(e.kinds);
    free(e.operands);
}

static uint64_t *unused_lines(size_t count)
{
    uint64_t *lines = allocated(8 * count);

    for (size_t k = 0; k < count; k++)
        lines[k] = UNUSED_LINE;
    return lines;
}

static uint64_t line_of(uint32_t answer, uint64_t sent, uint64_t air, uint64_t hops)
{
    return answer | sent << 32 | air << 40 | hops << 48;
}

/* The line of a step. */
static uint64_t line_of_step(struct step s)
{
    bool traces = s.call.kind == SRP_EVENT_TRACE;

    return line_of(s.answer, traces ? 0 : s.count, s.air, traces ? s.count : 0);
}

/* A result with a tally. */
static uint64_t tallied(uint64_t length, uint64_t calls, uint64_t highest)
{
    return length << 16 | calls << 40 | highest << 56;
}

/* A run in a slice of lines that is as long as said; the events are only read. */
static uint64_t run_on(struct desk *d, struct events e, size_t length, uint64_t *lines, size_t lines_length)
{
    uint8_t *kinds = copied(e.kinds, e.count), *operands = copied(e.operands, e.operands_length);
    uint64_t r;

    memcpy(d->before, d->memory, LENT);
    r = srp_run(d->memory, length, kinds, e.count, operands, e.operands_length, lines, lines_length);
    CHECK_SAME(kinds, e.kinds, e.count);
    CHECK_SAME(operands, e.operands, e.operands_length);
    free(kinds);
    free(operands);
    return r;
}

/* A run that tells these steps. */
static void check_run(int line, struct desk *d, const struct step *steps, size_t count, unsigned highest)
{
    struct events e = events_of(steps, count);
    uint64_t *lines = unused_lines(count + 2);
    uint64_t r = run_on(d, e, LENT, lines, count + 2);

    check_eq(line, "the run", r, tallied(0, count, highest));
    check_eq(line, "the answer", SRP_SHORT_ANSWER(r), SRP_DONE);
    check_eq(line, "the refusal", SRP_REFUSED(r), false);
    check_eq(line, "calls", SRP_CALLS(r), count);
    check_eq(line, "highest", SRP_HIGHEST(r), highest);
    for (size_t k = 0; k < count; k++)
        check_eq(line, "a line", lines[k], line_of_step(steps[k]));
    check_eq(line, "past the lines", lines[count] == UNUSED_LINE && lines[count + 1] == UNUSED_LINE, true);
    check_left(line, d);
    free(lines);
    free_events(e);
}

/* 01's example and the square as runs: the lines and the bytes of the single calls. */
static void test_run(void)
{
    struct desk *d = opened(3, 1), *singly = example_after(EXAMPLE);
    uint64_t l = line_of(SRP_REQUEST_SENT_ON, 2, 128, 15);

    check_run(__LINE__, d, example, EXAMPLE, 2);
    CHECK_SAME(d->memory, singly->memory, LENT);
    free(singly);
    free(d);
    d = opened_under(4, 1, 5);
    singly = square_after(SQUARE);
    check_run(__LINE__, d, square, SQUARE, 5);
    singly->memory[SRP_LIMIT_AT] = 5;
    CHECK_SAME(d->memory, singly->memory, LENT);
    free(singly);
    free(d);
    CHECK_EQ(SRP_LINE_ANSWER(l), SRP_REQUEST_SENT_ON);
    CHECK_EQ(SRP_LINE_SENT(l), 2);
    CHECK_EQ(SRP_LINE_AIR(l), 128);
    CHECK_EQ(SRP_LINE_HOPS(l), 15);
}

/* No events: the tally of none, whatever is in the air, and no line. The free places are written, as by any run. */
static void test_run_of_nothing(void)
{
    struct desk *d = square_after(SQUARE);
    uint8_t *network = copied(d->memory, LENT);

    check_run(__LINE__, d, NULL, 0, 0);
    CHECK_SAME(d->memory, d->before, LENT);
    d->memory[SRP_LINK_AT(1, 0)] = 2;
    d->memory[SRP_PACKET_AT(5) + SRP_PACKET_KIND] = SRP_ERROR;
    check_run(__LINE__, d, NULL, 0, 0);
    CHECK_SAME(d->memory, network, LENT);
    free(network);
    free(d);
}

/* A packet is doubled until the air is full, and then not any more. */
static void check_run_to_full(unsigned limit)
{
    struct desk *d = example_under(3, limit);
    struct step steps[SRP_MAX_PACKETS + 3];
    const size_t count = sizeof steps / sizeof *steps;

    for (unsigned k = 0; k < count; k++) {
        bool room = k + 2 <= limit;

        steps[k] = (struct step){{SRP_EVENT_DUPLICATE, 0, 0}, room ? SRP_DONE : SRP_AIR_FULL, 0, room ? k + 2 : limit};
    }
    check_run(__LINE__, d, steps, count, limit);
    free(d);
}

static void test_run_to_full(void)
{
    check_run_to_full(1);
    check_run_to_full(2);
    check_run_to_full(127);
    check_run_to_full(SRP_MAX_PACKETS);
}

/*
 * Runs on what is there: the tally counts refused events too, and the packets after each event, not before it. An exact slice of lines does.
 */
static void test_run_goes_on(void)
{
    static const struct step refused[] = {
        {{SRP_EVENT_UP, 0, 2}, 3, 0, 5},      {{SRP_EVENT_DOWN, 0, 1}, 3, 0, 5},      {{SRP_EVENT_SOLICIT, 2, 0}, 4, 0, 5},
        {{SRP_EVENT_GIVE_UP, 0, 0}, 5, 0, 5}, {{SRP_EVENT_DELIVER, 5, 0}, 6, 0, 5},   {{SRP_EVENT_EXPIRE, 4, 0}, 2, 0, 5},
        {{SRP_EVENT_TRACE, 2, 2}, 2, 0, 5},   {{SRP_EVENT_DUPLICATE, 0, 0}, 7, 0, 5},
    };
    static const struct step fewer[] = {
        {{SRP_EVENT_LOSE, 4, 0}, 0, 0, 4},
        {{SRP_EVENT_DELIVER, 0, 0}, 122, 0, 3},
        {{SRP_EVENT_TRACE, 3, 0}, 131, 2, 3},
        {{SRP_EVENT_DUPLICATE, 2, 0}, 0, 0, 4},
    };
    struct desk *d = square_after(SQUARE);
    struct events e = events_of(fewer, 4);
    uint64_t *lines = unused_lines(4);

    d->memory[SRP_LIMIT_AT] = 5;
    check_run(__LINE__, d, refused, sizeof refused / sizeof *refused, 5);
    CHECK_SAME(d->memory, d->before, LENT);
    check_run(__LINE__, d, fewer, 4, 4);
    free(d);
    d = square_after(SQUARE);
    CHECK_EQ(run_on(d, e, SRP_LENGTH, lines, 4), tallied(0, 4, 4));
    CHECK_EQ(lines[3], line_of_step(fewer[3]));
    free(lines);
    free_events(e);
    free(d);
}

/* A run that is turned down: the number alone, and every byte and line as it was. */
static void check_run_refused(int line, struct desk *d, struct events e, size_t length, size_t lines_length, uint32_t number)
{
    uint64_t *lines = unused_lines(lines_length);

    check_eq(line, "the refusal", run_on(d, e, length, lines, lines_length), number);
    check_same(line, "memory", d->memory, d->before, LENT);
    for (size_t k = 0; k < lines_length; k++)
        check_eq(line, "a line", lines[k], UNUSED_LINE);
    free(lines);
}

/* 10, 1, 11, 12. */
static void test_run_refused(void)
{
    struct desk *d = example_after(3);
    struct events e = events_of(example, EXAMPLE), most = no_events(SRP_MAX_EVENTS + 1);

    memset(most.kinds, SRP_EVENT_TRACE, most.count);
    memset(most.operands, 0, most.operands_length);
    check_run_refused(__LINE__, d, most, LENT, SRP_MAX_EVENTS + 1, SRP_SCRIPT_SIZE);
    check_run_refused(__LINE__, d, most, 0, 0, SRP_SCRIPT_SIZE);
    most.count = SRP_MAX_EVENTS;
    check_run_refused(__LINE__, d, most, LENT, SRP_MAX_EVENTS, SRP_SCRIPT_SIZE);
    most.operands_length = 2 * SRP_MAX_EVENTS;
    check_run_refused(__LINE__, d, most, LENT, SRP_MAX_EVENTS - 1, SRP_NO_ROOM);
    free_events(most);

    e.operands_length--;
    check_run_refused(__LINE__, d, e, LENT, EXAMPLE, SRP_SCRIPT_SIZE);
    check_run_refused(__LINE__, d, e, SRP_LENGTH - 1, 0, SRP_SCRIPT_SIZE);
    e.operands_length = 0;
    check_run_refused(__LINE__, d, e, LENT, EXAMPLE, SRP_SCRIPT_SIZE);
    e.operands_length = 2 * EXAMPLE;
    e.count = EXAMPLE - 1;
    check_run_refused(__LINE__, d, e, LENT, EXAMPLE, SRP_SCRIPT_SIZE);
    e.count = EXAMPLE;
    check_run_refused(__LINE__, d, e, LENT, EXAMPLE - 1, SRP_NO_ROOM);
    check_run_refused(__LINE__, d, e, LENT, 0, SRP_NO_ROOM);
    e.kinds[8] = 10;
    check_run_refused(__LINE__, d, e, LENT, EXAMPLE, SRP_NO_EVENT);
    e.kinds[8] = 0;
    check_run_refused(__LINE__, d, e, LENT, 0, SRP_NO_EVENT);
    e.kinds[8] = SRP_EVENT_TRACE;
    e.operands[7] = 1;
    check_run_refused(__LINE__, d, e, LENT, 0, SRP_NO_EVENT);
    check_run_refused(__LINE__, d, e, SRP_LENGTH - 1, 0, SRP_OUT_OF_RANGE);
    check_run_refused(__LINE__, d, e, 0, EXAMPLE, SRP_OUT_OF_RANGE);
    d->memory[SRP_LIMIT_AT] = 129;
    check_run_refused(__LINE__, d, e, LENT, 0, SRP_OUT_OF_RANGE);
    e.operands[7] = 0;
    check_run_refused(__LINE__, d, e, LENT, EXAMPLE, SRP_OUT_OF_RANGE);
    d->memory[SRP_LIMIT_AT] = 0; /* one packet is in the air */
    check_run_refused(__LINE__, d, e, LENT, EXAMPLE, SRP_OUT_OF_RANGE);
    free_events(e);
    free(d);
}

/*
 * 02: with the highest count as the limit every event tells the same, with one less the first that led to it is answered 7. Asked of the
 * square, and of the square after each of its steps, where packets are in the air already.
 */
static void test_highest(void)
{
    for (size_t from = 0; from < SQUARE; from++) {
        struct desk *d = square_after(from);
        uint8_t *network = copied(d->memory, LENT);
        struct events e = events_of(square + from, SQUARE - from);
        uint64_t *lines = unused_lines(SQUARE), *again = unused_lines(SQUARE);
        uint64_t r = run_on(d, e, LENT, lines, SQUARE);
        size_t first = 0;

        CHECK_EQ(SRP_HIGHEST(r), 5);
        memcpy(d->memory, network, LENT);
        d->memory[SRP_LIMIT_AT] = 5;
        CHECK_EQ(run_on(d, e, LENT, again, SQUARE), r);
        CHECK_EQ(memcmp(lines, again, 8 * SQUARE), 0);
        while (SRP_LINE_AIR(lines[first]) < 5)
            first++;
        memcpy(d->memory, network, LENT);
        d->memory[SRP_LIMIT_AT] = 4;
        if (network[SRP_AIR_AT] > 4) {
            CHECK_EQ(run_on(d, e, LENT, again, SQUARE), SRP_OUT_OF_RANGE);
        } else {
            CHECK_EQ(SRP_SHORT_ANSWER(run_on(d, e, LENT, again, SQUARE)), SRP_DONE);
            CHECK_EQ(memcmp(lines, again, 8 * first), 0);
            CHECK_EQ(SRP_LINE_ANSWER(lines[first]), SRP_DONE);
            CHECK_EQ(SRP_LINE_ANSWER(again[first]), SRP_AIR_FULL);
        }
        free(lines);
        free(again);
        free_events(e);
        free(network);
        free(d);
    }
}

/* ---- Rehearsals ------------------------------------------------------------------------------ */

/* What 01 prints of its example, and what it is under the limits 1 and 0. */
static const char example_text[] =
    "0 1 0 1 0 0 0 0\n1 1 1 2 0 0 0 0\n2 3 2 0 0 1 1 0\n3 6 0 0 103 2 2 0\n4 6 0 0 102 1 2 0\n5 7 0 0 0 0 1 0\n"
    "6 6 0 0 115 1 1 0\n7 6 0 0 115 0 0 0\n8 9 2 0 131 0 0 2\nL 1 0 1 1 2 0\nL 2 0 1 2 3 1\n";
static const char text_under_1[] =
    "0 1 0 1 0 0 0 0\n1 1 1 2 0 0 0 0\n2 3 2 0 0 1 1 0\n3 6 0 0 7 0 1 0\n4 6 0 0 7 0 1 0\n5 7 0 0 0 0 0 0\n"
    "6 6 0 0 6 0 0 0\n7 6 0 0 6 0 0 0\n8 9 2 0 132 0 0 0\n";
static const char text_under_0[] =
    "0 1 0 1 0 0 0 0\n1 1 1 2 0 0 0 0\n2 3 2 0 7 0 0 0\n3 6 0 0 6 0 0 0\n4 6 0 0 6 0 0 0\n5 7 0 0 6 0 0 0\n"
    "6 6 0 0 6 0 0 0\n7 6 0 0 6 0 0 0\n8 9 2 0 132 0 0 0\n";

/* A rehearsal into a slice of its own; the script is only read. */
static uint64_t rehearse(const uint8_t *script, size_t length, size_t limit, uint8_t *out, size_t out_length)
{
    uint8_t *own = copied(script, length);
    uint64_t r = srp_rehearse(own, length, limit, out, out_length);

    CHECK_SAME(own, script, length);
    free(own);
    return r;
}

static void check_rehearsal(int line, const uint8_t *script, size_t length, size_t limit, const char *text, unsigned calls, unsigned highest)
{
    size_t room = SRP_PRINTOUT_BYTES, wide = strlen(text);
    uint8_t *out = memset(allocated(room), 0xa5, room), *wanted = copied(out, room);
    uint64_t r = rehearse(script, length, limit, out, room);

    memcpy(wanted, text, wide);
    check_eq(line, "the rehearsal", r, tallied(wide, calls, highest));
    check_eq(line, "the answer", SRP_SHORT_ANSWER(r), SRP_DONE);
    check_eq(line, "the refusal", SRP_REFUSED(r), false);
    check_eq(line, "the text's length", SRP_TEXT_LENGTH(r), wide);
    check_eq(line, "calls", SRP_CALLS(r), calls);
    check_eq(line, "highest", SRP_HIGHEST(r), highest);
    check_same(line, "the text", out, wanted, room);
    free(wanted);
    free(out);
}

static void test_rehearse(void)
{
    uint8_t script[64];
    size_t length = bytes_of(example_script, script);

    check_rehearsal(__LINE__, script, length, SRP_MAX_PACKETS, example_text, EXAMPLE, 2);
    check_rehearsal(__LINE__, script, length, 2, example_text, EXAMPLE, 2);
    check_rehearsal(__LINE__, script, length, 1, text_under_1, EXAMPLE, 1);
    check_rehearsal(__LINE__, script, length, 0, text_under_0, EXAMPLE, 0);
    length = bytes_of("02 0000 0100000000000000", script);
    check_rehearsal(__LINE__, script, length, 128, "", 0, 0);
    length = bytes_of("02 0100 ffffffffffffffff 09 ffff", script);
    check_rehearsal(__LINE__, script, length, 7, "0 9 255 255 2 0 0 0\n", 1, 0);
}

/* A rehearsal that is turned down: the number alone, and every byte as it was. */
static void check_rehearsal_refused(int line, const char *digits, size_t limit, size_t room, uint32_t number)
{
    uint8_t script[64], *out = memset(allocated(room), 0xa5, room), *before = copied(out, room);
    size_t length = bytes_of(digits, script);

    check_eq(line, "the refusal", rehearse(script, length, limit, out, room), number);
    check_same(line, "out", out, before, room);
    free(before);
    free(out);
}

/* 9, 10, 1, 11, 14, 12. */
static void test_rehearse_refused(void)
{
    static const struct {
        const char *digits;
        uint32_t number;
    } scripts[] = {
        {"", SRP_SCRIPT_SHORT},
        {"02 0000 01000000000000", SRP_SCRIPT_SHORT},
        {"02 0100 0100000000000000 01 00", SRP_SCRIPT_SIZE},
        {"00 0000 0000000000000000 00", SRP_SCRIPT_SIZE},
        {"02 0110 0100000000000000", SRP_SCRIPT_SIZE},
        {"01 0000 0100000000000000", SRP_OUT_OF_RANGE},
        {"11 0100 0100000000000000 0a 0000", SRP_OUT_OF_RANGE},
        {"02 0000 0000000000000000", SRP_OUT_OF_RANGE},
        {"02 0100 0100000000000000 0a 0000", SRP_NO_EVENT},
        {"02 0100 0100000000000000 04 0001", SRP_NO_EVENT},
    };
    const size_t room = SRP_PRINTOUT_BYTES;

    for (size_t k = 0; k < sizeof scripts / sizeof *scripts; k++) {
        check_rehearsal_refused(__LINE__, scripts[k].digits, SRP_MAX_PACKETS, room, scripts[k].number);
        check_rehearsal_refused(__LINE__, scripts[k].digits, SRP_MAX_PACKETS + 1, room - 1, scripts[k].number);
        check_rehearsal_refused(__LINE__, scripts[k].digits, SIZE_MAX, 0, scripts[k].number);
    }
    for (size_t k = 0; k < sizeof high_limits / sizeof *high_limits; k++) {
        check_rehearsal_refused(__LINE__, example_script, high_limits[k], room, SRP_LIMIT_TOO_HIGH);
        check_rehearsal_refused(__LINE__, example_script, high_limits[k], 0, SRP_LIMIT_TOO_HIGH);
    }
    check_rehearsal_refused(__LINE__, example_script, SRP_MAX_PACKETS, room - 1, SRP_NO_ROOM);
    check_rehearsal_refused(__LINE__, example_script, 0, sizeof example_text, SRP_NO_ROOM); /* the text would fit */
    check_rehearsal_refused(__LINE__, "02 0000 0100000000000000", 0, 0, SRP_NO_ROOM);
}

/* As many events as there may be, with the longest lines that two stations and no packets have. */
static void test_rehearse_longest(void)
{
    const size_t e = SRP_MAX_EVENTS;
    uint8_t *script = allocated(SRP_SCRIPT_BYTES(e));
    char *text = allocated(24 * e), *end = text;

    script[0] = 2;
    put(script + 1, 2, e);
    put(script + 3, 8, 1);
    memset(script + 11, SRP_EVENT_TRACE, e);
    memset(script + 11 + e, 0xff, 2 * e);
    for (size_t k = 0; k < e; k++)
        end += sprintf(end, "%zu 9 255 255 2 0 0 0\n", k);
    check_rehearsal(__LINE__, script, SRP_SCRIPT_BYTES(e), SRP_MAX_PACKETS, text, SRP_MAX_EVENTS, 0);
    free(text);
    free(script);
}

/* ---- Damaged memory ------------------------------------------------------------------------- */

/* A byte of the square after its last step, and a value that it must not have. */
struct wrong_byte {
    size_t at;
    uint8_t value;
};

/* Bytes that have no meaning. Packet 0 is an error, packet 1 a request, packet 4 a reply. */
static const struct wrong_byte meaningless[] = {
    {SRP_VERSION_AT, 0},
    {SRP_VERSION_AT, 4}, /* as many stations as there are */
    {SRP_VERSION_AT, 16},
    {SRP_VERSION_AT, 17},
    {SRP_VERSION_AT, 18}, /* the version before */
    {SRP_VERSION_AT, 20},
    {SRP_VERSION_AT, 255},
    {SRP_N_AT, 17},
    {SRP_N_AT, 255},
    {SRP_AIR_AT, 129},
    {SRP_AIR_AT, 255},
    {SRP_STATION_AT(0) + SRP_STATION_ACTIVE, 2},
    {SRP_STATION_AT(3) + SRP_STATION_ACTIVE, 255},
    {SRP_LINK_AT(0, 1), 2},
    {SRP_LINK_AT(2, 3), 128},
    {SRP_RECORD_AT(0, 1) + SRP_RECORD_PASSED, 2},
    {SRP_RECORD_AT(3, 0) + SRP_RECORD_PASSED, 3},
    {SRP_PACKET_AT(1) + SRP_PACKET_RESET, 2},
    {SRP_PACKET_AT(1) + SRP_PACKET_MASK, 1},
    {SRP_PACKET_AT(1) + SRP_PACKET_MASK + 1, 1},
    {SRP_PACKET_AT(4) + SRP_PACKET_RESET, 1},
    {SRP_PACKET_AT(4) + SRP_PACKET_MASK, 1},
    {SRP_PACKET_AT(4) + SRP_PACKET_MASK + 1, 128},
    {SRP_PACKET_AT(0) + SRP_PACKET_SOURCE, 1},
    {SRP_PACKET_AT(0) + SRP_PACKET_NUMBER, 1},
    {SRP_PACKET_AT(0) + SRP_PACKET_NUMBER + 3, 1},
    {SRP_PACKET_AT(0) + SRP_PACKET_DESTINATION, 1},
    {SRP_PACKET_AT(0) + SRP_PACKET_LABEL + SRP_LABEL_S + 7, 1},
    {SRP_PACKET_AT(0) + SRP_PACKET_LABEL + SRP_LABEL_M, 1},
    {SRP_PACKET_AT(0) + SRP_PACKET_LABEL + SRP_LABEL_D, 1},
    {SRP_PACKET_AT(0) + SRP_PACKET_RESET, 1},
};

/* Bytes that have a meaning, of a network out of range. Station 3's row for 0 names 1 and 2. */
static const struct wrong_byte out_of_range[] = {
    {SRP_N_AT, 0},
    {SRP_N_AT, 1},
    {SRP_N_AT, 3},
    {SRP_STATION_AT(1) + SRP_STATION_SOUGHT, 4},
    {SRP_LABEL_AT(1, 2) + SRP_LABEL_M, 0},
    {SRP_LABEL_AT(1, 2) + SRP_LABEL_S, 1},
    {SRP_LABEL_AT(3, 0) + SRP_LABEL_M, 3},
    {SRP_LABEL_AT(3, 0) + SRP_LABEL_D, 0},
    {SRP_LABEL_AT(3, 0) + SRP_LABEL_S, 0},
    {SRP_LABEL_AT(2, 2) + SRP_LABEL_S, 0},
    {SRP_LABEL_AT(2, 2) + SRP_LABEL_M, 1},
    {SRP_LABEL_AT(2, 2) + SRP_LABEL_D, 2},
    {SRP_ROW_AT(2, 2) + SRP_ROW_COUNT, 1},
    {SRP_ROW_AT(3, 0) + SRP_ROW_COUNT, 5},
    {SRP_ROW_AT(3, 0) + SRP_ROW_COUNT, 3},
    {SRP_ROW_AT(3, 0) + SRP_ROW_ENTRIES + SRP_ENTRY_STATION, 3},
    {SRP_ROW_AT(3, 0) + SRP_ROW_ENTRIES + SRP_ENTRY_STATION, 2},
    {SRP_ROW_AT(3, 0) + SRP_ROW_ENTRIES + SRP_ENTRY_STATION, 4},
    {SRP_ROW_AT(3, 0) + SRP_ROW_ENTRIES + SRP_ENTRY_LABEL + SRP_LABEL_M, 2},
    {SRP_RECORD_AT(2, 3) + SRP_RECORD_DESTINATION, 4},
    {SRP_RECORD_AT(2, 3) + SRP_RECORD_CACHED + SRP_LABEL_M, 2},
    {SRP_RECORD_AT(2, 3) + SRP_RECORD_LAST_HOP, 4},
    {SRP_PACKET_AT(0) + SRP_PACKET_SENDER, 4},
    {SRP_PACKET_AT(0) + SRP_PACKET_SENDER, 3},
    {SRP_PACKET_AT(0) + SRP_PACKET_RECEIVER, 4},
    {SRP_PACKET_AT(0) + SRP_PACKET_KIND, 0},
    {SRP_PACKET_AT(0) + SRP_PACKET_KIND, 1},
    {SRP_PACKET_AT(0) + SRP_PACKET_KIND, 4},
    {SRP_PACKET_AT(0) + SRP_PACKET_MASK, 16},
    {SRP_PACKET_AT(0) + SRP_PACKET_MASK + 1, 1},
    {SRP_PACKET_AT(1) + SRP_PACKET_SOURCE, 4},
    {SRP_PACKET_AT(1) + SRP_PACKET_NUMBER, 0},
    {SRP_PACKET_AT(1) + SRP_PACKET_DESTINATION, 4},
    {SRP_PACKET_AT(1) + SRP_PACKET_LABEL + SRP_LABEL_D, 2},
    {SRP_PACKET_AT(4) + SRP_PACKET_NUMBER, 0},
    {SRP_AIR_AT, 6},
    {SRP_LIMIT_AT, 129},
    {SRP_LIMIT_AT, 128 + 64},
    {SRP_LIMIT_AT, 255},
    {SRP_LIMIT_AT, 4}, /* 5 packets are in the air */
    {SRP_LIMIT_AT, 0},
};

static void check_wrong_bytes(const struct wrong_byte *bytes, size_t count)
{
    struct desk *d = square_after(SQUARE);
    uint8_t *network = copied(d->memory, LENT);

    for (size_t k = 0; k < count; k++) {
        unsigned long failures = tally.failures;

        memcpy(d->memory, network, LENT);
        d->memory[bytes[k].at] = bytes[k].value;
        CHECK_EQ(in_range(d->memory), false);
        check_out_of_range(__LINE__, d, LENT);
        if (tally.failures != failures)
            fprintf(stderr, "    with byte %zu set to %u\n", bytes[k].at, bytes[k].value);
    }
    free(network);
    free(d);
}

/* Each first byte but the version is turned down; with the version put back the network is there again. Open writes it over any other. */
static void test_version(void)
{
    struct desk *d = opened(3, 1);
    uint8_t *network = copied(d->memory, LENT);

    CHECK_EQ(d->memory[SRP_VERSION_AT], SRP_VERSION);
    CHECK_EQ(d->memory[SRP_N_AT], 3);
    for (unsigned version = 0; version < 256; version++) {
        d->memory[SRP_VERSION_AT] = (uint8_t)version;
        CHECK_EQ(srp_size(d->memory, LENT), version == SRP_VERSION ? result(SRP_DONE, 3) : SRP_OUT_OF_RANGE);
        CHECK_EQ(d->memory[SRP_VERSION_AT], version);
        d->memory[SRP_VERSION_AT] = SRP_VERSION;
        CHECK_EQ(srp_size(d->memory, LENT), result(SRP_DONE, 3));
        CHECK_SAME(d->memory, network, LENT);
        d->memory[SRP_VERSION_AT] = (uint8_t)version;
        CHECK_EQ(call_on(d, (struct call){OPEN, 3, 1}, LENT, OUT), SRP_DONE);
        CHECK_SAME(d->memory, network, LENT);
    }
    free(network);
    free(d);
}

/* A row of a station for itself that would be in range for another. */
static void test_own_row(void)
{
    struct desk *d = square_after(SQUARE);
    uint8_t *row = d->memory + SRP_ROW_AT(2, 2);

    row[SRP_ROW_COUNT] = 1;
    row[SRP_ROW_ENTRIES + SRP_ENTRY_STATION] = 3;
    put_label(row + SRP_ROW_ENTRIES + SRP_ENTRY_LABEL, 1, 0, 1);
    check_out_of_range(__LINE__, d, LENT);
    free(d);
}

static void test_wrong_bytes(void)
{
    check_wrong_bytes(meaningless, sizeof meaningless / sizeof *meaningless);
    check_wrong_bytes(out_of_range, sizeof out_of_range / sizeof *out_of_range);
}

/* Random bytes: all of them, most with the version, and half with numbers of stations and packets that are in range. */
static void test_random_bytes(void)
{
    struct desk *d = opened(2, 1);
    uint64_t state = 0x9e3779b97f4a7c15u;

    for (unsigned trial = 0; trial < 50; trial++) {
        for (size_t at = 0; at < LENT; at++)
            d->memory[at] = (uint8_t)(next_random(&state) >> 32);
        if (trial % 5)
            d->memory[SRP_VERSION_AT] = SRP_VERSION;
        if (trial % 2) {
            d->memory[SRP_N_AT] = (uint8_t)(2 + trial % 15);
            d->memory[SRP_AIR_AT] = (uint8_t)trial;
        }
        CHECK_EQ(in_range(d->memory), false);
        check_out_of_range(__LINE__, d, LENT);
    }
    CHECK_EQ(call_on(d, (struct call){OPEN, 3, 1}, LENT, OUT), SRP_DONE);
    check_left(__LINE__, d);
    free(d);
}

/* The calls that are made on damaged memory, accepted and turned down by the square. */
static const struct call trials[] = {
    {SRP_EVENT_DELIVER, 0, 0},   {SRP_EVENT_DELIVER, 1, 0},   {SRP_EVENT_DELIVER, 2, 0}, {SRP_EVENT_DELIVER, 3, 0}, {SRP_EVENT_DELIVER, 4, 0},
    {SRP_EVENT_DELIVER, 5, 0},   {SRP_EVENT_UP, 0, 1},        {SRP_EVENT_UP, 0, 2},      {SRP_EVENT_DOWN, 3, 2},    {SRP_EVENT_DOWN, 0, 2},
    {SRP_EVENT_DOWN, 0, 3},      {SRP_EVENT_SOLICIT, 0, 3},   {SRP_EVENT_SOLICIT, 1, 0}, {SRP_EVENT_SOLICIT, 2, 0}, {SRP_EVENT_GIVE_UP, 3, 0},
    {SRP_EVENT_GIVE_UP, 0, 0},   {SRP_EVENT_EXPIRE, 3, 0},    {SRP_EVENT_EXPIRE, 0, 1},  {SRP_EVENT_LOSE, 2, 0},    {SRP_EVENT_LOSE, 4, 0},
    {SRP_EVENT_DUPLICATE, 0, 0}, {SRP_EVENT_DUPLICATE, 3, 0}, {SRP_EVENT_TRACE, 3, 0},   {SRP_EVENT_TRACE, 1, 0},   {LABEL, 3, 0},
    {ROW, 3, 0},                 {RECORD, 2, 3},              {STATION, 3, 0},           {PACKET, 4, 0},            {LINK, 2, 3},
    {PREVIEW, 0, 0},             {PREVIEW, 1, 0},             {PREVIEW, 2, 0},           {PREVIEW, 3, 0},           {PREVIEW, 4, 0},
    {DRAIN, 0, 0},               {RUN, 3, 0},                 {RUN, 3, 4},               {LIMIT, 0, 0},
};
#define TRIALS (sizeof trials / sizeof *trials)

/* What a call gives on the square itself: its result, and what it leaves. */
struct outcome {
    uint64_t result;
    uint8_t memory[SRP_LENGTH], out[OUT];
};

static void find_outcome(struct outcome *o, const uint8_t *network, struct call c)
{
    memcpy(o->memory, network, SRP_LENGTH);
    memset(o->out, 0x5a, OUT);
    o->result = make(c, o->memory, SRP_LENGTH, o->out, OUT);
}

/*
 * The same call where only free places differ: the same result, the same bytes shown, and the same bytes left, but for places of no
 * station, which are written back as they were.
 */
static void check_as_undamaged(struct desk *d, struct call c, uint64_t r, const struct outcome *o, const uint8_t *map)
{
    uint8_t *wanted = copied(d->before, SRP_LENGTH);

    CHECK_EQ(r, o->result);
    CHECK_SAME(d->out, o->out, OUT);
    if (!SRP_REFUSED(r) && !shows(c.kind)) {
        settle(wanted);
        for (size_t at = 0; at < SRP_LENGTH; at++)
            wanted[at] = map[at] == OF_NO_STATION ? wanted[at] : o->memory[at];
    }
    CHECK_SAME(d->memory, wanted, SRP_LENGTH);
    free(wanted);
}

/* srp_size tells memory in range from memory out of range. */
static void check_size(struct desk *d)
{
    CHECK_EQ(srp_size(d->memory, LENT), in_range(d->memory) ? result(SRP_DONE, d->memory[SRP_N_AT]) : SRP_OUT_OF_RANGE);
}

/* A call on memory that may be out of range. */
static uint64_t check_trial(struct desk *d, struct call c, size_t length)
{
    bool ranged = in_range(d->memory);
    uint64_t r;

    memset(d->out, 0x5a, OUT);
    r = call_on(d, c, length, OUT);
    CHECK_EQ(SRP_ANSWER(r) == SRP_OUT_OF_RANGE, !ranged);
    if (SRP_REFUSED(r)) {
        CHECK_EQ(SRP_ANSWER(r) <= SRP_NUMBERS_USED_UP, true);
        CHECK_EQ(SRP_COUNT(r), 0);
        CHECK_SAME(d->memory, d->before, LENT);
        CHECK_SAME(d->out, d->out_before, OUT);
    } else if (shows(c.kind)) {
        CHECK_SAME(d->memory, d->before, LENT);
    } else {
        check_left(__LINE__, d);
    }
    return r;
}

/* One byte of the square is another, and a call is made, another one at each trial. */
static void check_damage(struct desk *d, const uint8_t *network, const uint8_t *map, const struct outcome *outcomes, size_t at, uint8_t value,
                         size_t trial)
{
    unsigned long failures = tally.failures;
    struct call c = trials[trial % TRIALS];
    uint64_t r;

    memcpy(d->memory, network, LENT);
    d->memory[at] = value;
    check_size(d);
    r = check_trial(d, c, trial / TRIALS % 2 ? LENT : SRP_LENGTH);
    if (map[at] != IN_USE)
        check_as_undamaged(d, c, r, &outcomes[trial % TRIALS], map);
    if (tally.failures != failures && tally.failures <= PRINTED_FAILURES)
        fprintf(stderr, "    with byte %zu set to %u, call %d(%zu, %zu)\n", at, value, c.kind, c.a, c.b);
}

static void test_damage(size_t step)
{
    struct desk *d = square_after(SQUARE);
    uint8_t *network = copied(d->memory, LENT), *map = allocated(SRP_LENGTH);
    struct outcome *outcomes = allocated(TRIALS * sizeof *outcomes);
    size_t trial = 0;

    mark(network, map);
    for (size_t k = 0; k < TRIALS; k++)
        find_outcome(&outcomes[k], network, trials[k]);
    for (size_t at = 0; at < SRP_LENGTH; at += step) {
        check_damage(d, network, map, outcomes, at, network[at] ^ 1, trial++);
        check_damage(d, network, map, outcomes, at, network[at] ^ 0x80, trial++);
        check_damage(d, network, map, outcomes, at, 0xff, trial++);
    }
    free(outcomes);
    free(map);
    free(network);
    free(d);
}

/* Every byte in use, with values at the ends of what it may be. */
static void test_values(void)
{
    static const uint8_t values[] = {0, 1, 2, 3, 4, 5, 15, 16, 17, 127, 128, 129, 255};
    struct desk *d = square_after(SQUARE);
    uint8_t *network = copied(d->memory, LENT), *map = allocated(SRP_LENGTH);

    mark(network, map);
    for (size_t at = 0; at < SRP_LENGTH; at++)
        for (size_t k = 0; map[at] == IN_USE && k < sizeof values; k++) {
            d->memory[at] = values[k];
            check_size(d);
            d->memory[at] = network[at];
        }
    CHECK_SAME(d->memory, network, LENT);
    free(map);
    free(network);
    free(d);
}

/* ---- Free places ---------------------------------------------------------------------------- */

/* Random bytes in every free place. */
static void scribble(uint8_t *memory, const uint8_t *map, uint64_t *state)
{
    for (size_t at = 0; at < SRP_LENGTH; at++)
        if (map[at] != IN_USE)
            memory[at] = (uint8_t)(next_random(state) >> 32);
}

/* The same calls on a network and on its copy with other free places: the same, but for what no station has. */
static void check_free_places(const struct desk *from, uint64_t *state)
{
    struct desk *d = allocated(sizeof *d);
    uint8_t *map = allocated(SRP_LENGTH);
    struct outcome *o = allocated(sizeof *o);

    mark(from->memory, map);
    for (size_t k = 0; k < TRIALS; k++) {
        unsigned long failures = tally.failures;

        memcpy(d->memory, from->memory, LENT);
        scribble(d->memory, map, state);
        find_outcome(o, from->memory, trials[k]);
        CHECK_EQ(in_range(d->memory), true);
        check_as_undamaged(d, trials[k], check_trial(d, trials[k], LENT), o, map);
        if (tally.failures != failures)
            fprintf(stderr, "    at trial %zu\n", k);
    }
    free(o);
    free(map);
    free(d);
}

static void test_free_places(void)
{
    uint64_t state = 0x2545f4914f6cdd1du;

    for (size_t steps = 0; steps <= SQUARE; steps++) {
        struct desk *d = square_after(steps);

        check_free_places(d, &state);
        free(d);
    }
}

/* Each flag of no station: 0 unless it was 1. */
static void test_free_flags(void)
{
    static const size_t flags[] = {
        SRP_STATION_AT(4) + SRP_STATION_ACTIVE,
        SRP_STATION_AT(15) + SRP_STATION_ACTIVE,
        SRP_LINK_AT(0, 4),
        SRP_LINK_AT(1, 0),
        SRP_LINK_AT(2, 2),
        SRP_LINK_AT(15, 15),
        SRP_RECORD_AT(0, 0) + SRP_RECORD_PASSED,
        SRP_RECORD_AT(3, 4) + SRP_RECORD_PASSED,
        SRP_RECORD_AT(15, 0) + SRP_RECORD_PASSED,
    };
    struct desk *d = square_after(SQUARE);

    for (size_t k = 0; k < sizeof flags / sizeof *flags; k++)
        for (unsigned value = 0; value < 256; value += value < 3 ? 1 : 63) {
            d->memory[flags[k]] = (uint8_t)value;
            CHECK_EQ(call_on(d, (struct call){SRP_EVENT_EXPIRE, 0, 1}, LENT, OUT), SRP_DONE);
            CHECK_EQ(d->memory[flags[k]], value == 1);
            d->memory[flags[k]] = 0;
        }
    CHECK_EQ(call_on(d, (struct call){SRP_EVENT_EXPIRE, 0, 1}, LENT, OUT), SRP_DONE);
    CHECK_SAME(d->memory, d->before, LENT);
    free(d);
}

/* An entry and a packet that are gone leave zeros; a row that is shown has zeros past its count, whatever stands there. */
static void test_past_counts(void)
{
    static const uint8_t zeros[SRP_ROW_BYTES];
    struct desk *d = square_after(SQUARE);
    size_t row = SRP_ROW_AT(3, 0), second = row + SRP_ROW_ENTRIES + SRP_ENTRY_BYTES;

    d->memory[row + SRP_ROW_COUNT] = 1;
    CHECK_EQ(srp_row(d->memory, LENT, 3, 0, d->out, OUT), result(SRP_DONE, SRP_ROW_BYTES));
    CHECK_SAME(d->out + SRP_ROW_ENTRIES + SRP_ENTRY_BYTES, zeros, 3 * SRP_ENTRY_BYTES);
    d->memory[row + SRP_ROW_COUNT] = 2;
    CHECK_EQ(call_on(d, (struct call){SRP_EVENT_DELIVER, 0, 0}, LENT, OUT), result(SRP_ERROR_NONE_EMPTIED, 0));
    CHECK_EQ(d->memory[row + SRP_ROW_COUNT], 1);
    CHECK_SAME(d->memory + second, zeros, SRP_ENTRY_BYTES);
    CHECK_SAME(d->memory + SRP_PACKET_AT(4), zeros, SRP_PACKET_BYTES);
    CHECK_EQ(call_on(d, (struct call){SRP_EVENT_EXPIRE, 3, 0}, LENT, OUT), SRP_DONE);
    CHECK_SAME(d->memory + row, zeros, SRP_ROW_BYTES);
    CHECK_EQ(call_on(d, (struct call){SRP_EVENT_LOSE, 0, 0}, LENT, OUT), SRP_DONE);
    CHECK_SAME(d->memory + SRP_PACKET_AT(3), zeros, SRP_PACKET_BYTES);
    free(d);
}

/* --------------------------------------------------------------------------------------------- */

static uint64_t counted(uint64_t r, unsigned *times)
{
    (*times)++;
    return r;
}

/* Which results are refusals. The argument may be a call: it is evaluated once. */
static void test_refused(void)
{
    for (uint64_t answer = 0; answer < 140; answer++) {
        unsigned times = 0;

        CHECK_EQ(SRP_REFUSED(counted(answer | (uint64_t)7 << 32, &times)), answer >= 1 && answer <= 99);
        CHECK_EQ(times, 1);
    }
}

int main(int argc, char **argv)
{
    size_t step = argc > 1 ? strtoul(argv[1], NULL, 10) : 1;

    if (step == 0 || argc > 2) {
        fprintf(stderr, "usage: client [STEP]\n");
        return 2;
    }
    test_refused();
    test_open();
    test_example();
    test_exact_slice();
    test_square();
    test_find_shown();
    test_find();
    test_other_calls();
    test_hand_written();
    test_other_successors();
    test_previews();
    test_previews_of_requests();
    test_previews_of_replies();
    test_previews_of_errors();
    test_new_label();
    test_splits();
    test_simplest();
    test_split_delivered();
    test_reset_by_sum();
    test_reading();
    test_script_start();
    test_reading_refused();
    test_writing();
    test_writing_refused();
    test_script_sizes();
    test_no_station();
    test_not_as_it_stands();
    test_air_full();
    test_drain();
    test_drain_flood();
    test_air_over_full();
    test_air_full_for_down();
    test_numbers_used_up();
    test_no_room();
    test_short_slices();
    test_open_refused();
    test_serials();
    test_serials_of_down();
    test_serials_of_errors();
    test_serials_of_nobody();
    test_serials_of_copies();
    test_late_errors();
    test_mixed_errors();
    test_entry_serials();
    test_entry_serial_kept();
    test_late_error();
    test_solicit_used_up();
    test_deliver_used_up();
    test_full_and_used_up();
    test_drain_used_up();
    test_limits();
    test_limit_zero();
    test_limit_reached();
    test_limit_values();
    test_drain_limited();
    test_run();
    test_run_of_nothing();
    test_run_to_full();
    test_run_goes_on();
    test_run_refused();
    test_highest();
    test_rehearse();
    test_rehearse_refused();
    test_rehearse_longest();
    test_version();
    test_wrong_bytes();
    test_own_row();
    test_random_bytes();
    test_damage(step);
    test_values();
    test_free_places();
    test_free_flags();
    test_past_counts();
    if (tally.failures) {
        printf("console: %lu checks, %lu failed\n", tally.checks, tally.failures);
        return 1;
    }
    printf("console: %lu checks\n", tally.checks);
    return 0;
}

/*
 * Sets a network's air limit from the highest count of packets in the air. Six stations stand in a
 * ring with one link across, two of them seek station 0, and packet 0 is delivered again and again;
 * then the tracer goes from both. The same events are run with limit 128, with the highest count as
 * the limit, which changes nothing, and with one less: a delivery is turned down, and so are those
 * that follow, since the packet stays the first.
 */
#include "srp.h"

#include <stdio.h>

enum { STATIONS = 6, DELIVERIES = 30, EVENTS = 64 };

static uint8_t kinds[EVENTS], operands[2 * EVENTS];
static size_t count;

static void add(uint8_t kind, unsigned a, unsigned b)
{
    kinds[count] = kind;
    operands[2 * count] = (uint8_t)a;
    operands[2 * count + 1] = (uint8_t)b;
    count++;
}

static void add_events(void)
{
    for (unsigned i = 0; i < STATIONS; i++)
        add(SRP_EVENT_UP, i, (i + 1) % STATIONS);
    add(SRP_EVENT_UP, 1, 4);
    add(SRP_EVENT_SOLICIT, 3, 0);
    add(SRP_EVENT_SOLICIT, 2, 0);
    for (unsigned i = 0; i < DELIVERIES; i++)
        add(SRP_EVENT_DELIVER, 0, 0);
    add(SRP_EVENT_TRACE, 3, 0);
    add(SRP_EVENT_TRACE, 2, 0);
}

/* The events from a fresh network with this limit: their tally, and the line of each. */
static uint64_t run(size_t limit, uint64_t *lines)
{
    static uint8_t memory[SRP_LENGTH];

    srp_open(memory, sizeof memory, STATIONS, 1, limit);
    return srp_run(memory, sizeof memory, kinds, count, operands, 2 * count, lines, EVENTS);
}

static void print_run(size_t limit, uint64_t r, const uint64_t *lines)
{
    printf("limit %zu: %u events, highest count %u; traces", limit, SRP_CALLS(r), SRP_HIGHEST(r));
    for (size_t k = count - 2; k < count; k++)
        printf(" %u", SRP_LINE_ANSWER(lines[k]));
    printf("\n");
}

/* The first event that tells something else than before. */
static void print_difference(const uint64_t *before, const uint64_t *lines)
{
    for (size_t k = 0; k < count; k++)
        if (lines[k] != before[k]) {
            printf("event %zu: answer %u, %u in the air; before: answer %u, %u in the air\n", k,
                   SRP_LINE_ANSWER(lines[k]), SRP_LINE_AIR(lines[k]), SRP_LINE_ANSWER(before[k]),
                   SRP_LINE_AIR(before[k]));
            return;
        }
    printf("every event as before\n");
}

int main(void)
{
    static uint64_t first[EVENTS], again[EVENTS];
    uint64_t r;
    size_t highest;

    add_events();
    r = run(SRP_MAX_PACKETS, first);
    print_run(SRP_MAX_PACKETS, r, first);
    highest = SRP_HIGHEST(r);
    for (size_t less = 0; less < 2; less++) {
        r = run(highest - less, again);
        print_run(highest - less, r, again);
        print_difference(first, again);
    }
    return 0;
}

/*
 * Sees where a network settles, without stepping through its packets. Sixteen stations stand in a ring with four links across. All seek station
 * 0 at once, and one packet is lost, since the air has no room for what it would send. Then the links of station 0 go down one after the other.
 */
#include "srp.h"

#include <stdio.h>

enum { STATIONS = 16 };

static uint8_t memory[SRP_LENGTH];

static unsigned in_air(void)
{
    return SRP_COUNT(srp_air(memory, sizeof memory));
}

/* Drains the air, and prints for each station how its tracer ends: its hops to station 0, or a hyphen where there is no route. */
static void settle(const char *after)
{
    unsigned before = in_air();
    uint64_t r = srp_drain(memory, sizeof memory);

    printf("%s: %u in the air, %u delivered, %u lost, %u left; hops", after, before, SRP_DELIVERIES(r), SRP_LOSSES(r), in_air());
    for (unsigned i = 1; i < STATIONS; i++) {
        uint64_t trace = srp_trace(memory, sizeof memory, i, 0);

        if (SRP_ANSWER(trace) == SRP_TRACE_ARRIVED)
            printf(" %u", SRP_COUNT(trace));
        else
            printf(" -");
    }
    printf("\n");
}

int main(void)
{
    srp_open(memory, sizeof memory, STATIONS, 1, SRP_MAX_PACKETS);
    for (unsigned i = 0; i < STATIONS; i++)
        srp_up(memory, sizeof memory, i, (i + 1) % STATIONS);
    for (unsigned i = 0; i < 8; i += 2)
        srp_up(memory, sizeof memory, i, i + 8);
    for (unsigned i = 1; i < STATIONS; i++)
        srp_solicit(memory, sizeof memory, i, 0);
    settle("all seek 0");
    srp_down(memory, sizeof memory, 0, 1);
    settle("0 and 1 part");
    srp_down(memory, sizeof memory, 0, 8);
    settle("0 and 8 part");
    srp_solicit(memory, sizeof memory, 5, 0);
    settle("5 seeks 0");
    srp_down(memory, sizeof memory, 0, 15);
    settle("0 and 15 part");
    return 0;
}

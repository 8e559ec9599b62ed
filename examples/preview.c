/*
 * Looks at each packet before it lands: a route in a network of three stations, and the error that takes it down.
 * Each line is a preview and, after the bar, what the delivery then told. Where the packet's sender would be among the
 * receiver's successors, the line tells which of them.
 */
#include "srp.h"

#include <inttypes.h>
#include <stdio.h>

static uint8_t memory[SRP_LENGTH];

/* The label and the successors after a request or a reply, or the destinations that an error empties the rows of. */
static void show(uint64_t seen, const uint8_t *out, uint8_t sender)
{
    const uint8_t *label = out + SRP_PREVIEW_LABEL, *row = out + SRP_PREVIEW_ROW;
    uint64_t found = srp_find(row, SRP_ROW_BYTES, sender);

    printf("%u, sends %u", SRP_ANSWER(seen), SRP_COUNT(seen));
    if (SRP_ANSWER(seen) >= SRP_ERROR_NONE_REMOVED) {
        printf(", emptied %#x", srp_read2(out + SRP_PREVIEW_MASK));
        return;
    }
    printf(", label (%" PRIu64 ", %u/%u), successors", srp_read8(label + SRP_LABEL_S), srp_read4(label + SRP_LABEL_M),
           srp_read4(label + SRP_LABEL_D));
    for (unsigned e = 0; e < row[SRP_ROW_COUNT]; e++)
        printf(" %u", row[SRP_ROW_ENTRIES + SRP_ENTRY_BYTES * e + SRP_ENTRY_STATION]);
    if (SRP_FOUND_AT(found) < row[SRP_ROW_COUNT])
        printf(", sender at %u", SRP_FOUND_AT(found));
}

/* Every packet in the air, the first one first. */
static void deliver_all(void)
{
    while (SRP_COUNT(srp_air(memory, sizeof memory)) > 0) {
        uint8_t packet[SRP_PACKET_BYTES], out[SRP_PREVIEW_BYTES];
        uint64_t seen = srp_preview(memory, sizeof memory, 0, out, sizeof out);
        uint64_t done;

        srp_packet(memory, sizeof memory, 0, packet, sizeof packet);
        show(seen, out, packet[SRP_PACKET_SENDER]);
        done = srp_deliver(memory, sizeof memory, 0);
        printf(" | %u, sent %u\n", SRP_ANSWER(done), SRP_COUNT(done));
    }
}

int main(void)
{
    srp_open(memory, sizeof memory, 3, 1, SRP_MAX_PACKETS);
    srp_up(memory, sizeof memory, 0, 1);
    srp_up(memory, sizeof memory, 1, 2);
    srp_solicit(memory, sizeof memory, 2, 0);
    deliver_all();
    srp_down(memory, sizeof memory, 0, 1);
    deliver_all();
    return 0;
}

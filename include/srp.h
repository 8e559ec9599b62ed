/*
 * The Split-label Routing Protocol (SRP) on networks of 2 to 16 stations: the C entry points of
 * libconsole.a, for x86-64. 01 is the sandbox's specification (README.md).
 *
 * MEMORY. A network stands in SRP_LENGTH bytes that the caller lends to each call; docs/LAYOUT.md
 * lists them field by field. The library keeps nothing between calls. The bytes may be copied,
 * stored and compared.
 *
 * SLICES. A slice is a pointer and then a length in bytes; the length of lines, which srp_run is
 * lent, counts numbers of 64 bits. The library cannot test two things:
 *   - a pointer must be valid for its length, for writing too where it is not const, and must not be
 *     null, also where the length is 0; that of lines must be aligned as a uint64_t is;
 *   - a slice that a call writes to must not overlap another slice of the same call. Nobody else may
 *     use it during the call, nor write to the others.
 * All else is tested: every number and every content of the bytes may be handed in.
 *
 * RESULTS. Every function returns 64 bits. SRP_ANSWER is the low half: 0, a refusal number (1 to
 * 99, of which 1 to 14 are in use) or an outcome number (101 to 133). SRP_COUNT is the high half:
 * what the function's comment says, and 0 where the call is turned down. A function that counts two
 * things (srp_drain, srp_run, srp_rehearse) has its answer in the lowest 16 bits, SRP_SHORT_ANSWER,
 * and then SRP_FIRST_COUNT and SRP_SECOND_COUNT of 24 bits each; turned down, it too returns the
 * refusal number alone. srp_new_label and srp_script_start have results of their own.
 *
 * LIMIT. A network keeps the air limit that it was opened with, 0 to 128: no call leaves more
 * packets in the air. srp_run and srp_rehearse tell the highest count after any of their events.
 * Rehearsed again with that count as the limit, a script tells the same of every event; with one
 * less, where the count is at least 1, the first event that led to it is answered 7.
 * examples/limit.c sets a limit so.
 *
 * SERIALS. Each station numbers its sendings, from 1 on: a reply has the next number, and so has a
 * broadcast, one for all its copies; a broadcast to no up neighbour has none. A serial is such a number.
 * A station keeps its last one, a packet carries that of its sending, and an entry of a row keeps that
 * of the reply that made it.
 *
 * STACK. A call uses the caller's stack and allocates nothing. Up to 214,680 bytes were measured
 * (docs/LAYOUT.md, "Stack"); the library's tests fail where a call needs over 262,144.
 *
 * LINKING. The library needs memcpy and memset, and no other function.
 *
 * REFUSALS. Each function's comment lists the numbers that it is turned down with, in the order of
 * its tests. The first that applies is returned; where none applies the call is accepted. A call
 * turned down leaves every byte of every slice as it was. These are meant everywhere:
 *   1 (memory): length is below SRP_LENGTH, or the bytes have no meaning, or the network that stands
 *     in them is out of range (docs/LAYOUT.md, "What is turned down").
 *   2: a station is not below n, or the two are equal.
 *   7: more packets than the network's limit would be in the air after the call.
 *   13 (a station): it would send a packet, and its last serial is 18,446,744,073,709,551,615.
 *
 * ACCEPTED CALLS, from srp_open to srp_run, leave in the first SRP_LENGTH bytes of memory those
 * of the network after the step that 01 writes. Places past a count are zeros; what tables hold for
 * no station is written back (docs/LAYOUT.md, "After a call"). Bytes from SRP_LENGTH on are kept. The
 * network is in range again: while nobody else writes to the slice, no call on it gets 1 (memory).
 */
#ifndef SRP_H
#define SRP_H

#include <stddef.h>
#include <stdint.h>

#ifdef __cplusplus
extern "C" {
#endif

/* The two halves of a result. */
#define SRP_ANSWER(r) ((uint32_t)((r) & 0xffffffffu))
#define SRP_COUNT(r) ((uint32_t)((r) >> 32))

/* A result with two counts. */
#define SRP_SHORT_ANSWER(r) ((uint32_t)((r) & 0xffffu))
#define SRP_FIRST_COUNT(r) ((uint32_t)((r) >> 16 & 0xffffffu))
#define SRP_SECOND_COUNT(r) ((uint32_t)((r) >> 40))

/*
 * Whether a result, with one count or two, is a refusal: the answer is not 0 and below 100. Not for
 * srp_new_label and srp_script_start.
 */
#define SRP_REFUSED(r) (SRP_ANSWER(r) - 1u < 99u)

/* The answers: 0, refusals, outcomes. */
enum srp_answer {
    SRP_DONE = 0,                    /* done, and there is no outcome number */

    SRP_OUT_OF_RANGE = 1,            /* memory, a lent row, n, start or a label is out of range */
    SRP_NO_STATION = 2,              /* a station is not below n, or the two are equal */
    SRP_LINK_ALREADY = 3,            /* Up on an up link, Down on a down link */
    SRP_IS_ACTIVE = 4,               /* Solicit by an active station */
    SRP_IS_PASSIVE = 5,              /* Give up by a passive one */
    SRP_NO_PACKET = 6,               /* k is not below the packets in the air */
    SRP_AIR_FULL = 7,                /* more packets than the limit would be in the air after it */
    SRP_NUMBERS_USED_UP = 8,         /* the last request number is 4,294,967,295 */
    SRP_SCRIPT_SHORT = 9,            /* a script under 11 bytes */
    SRP_SCRIPT_SIZE = 10,            /* over 4,096 events, or lengths that do not fit their number */
    SRP_NO_EVENT = 11,               /* a kind not 1 to 9, or an unused operand not 0 */
    SRP_NO_ROOM = 12,                /* a lent output slice is too short */
    SRP_SERIALS_USED_UP = 13,        /* a station that would send has the last serial 2^64 - 1 */
    SRP_LIMIT_TOO_HIGH = 14,         /* an air limit over 128 */

    SRP_REQUEST_KNOWN = 101,         /* a request: own or known here, nothing done */
    SRP_REQUEST_ANSWERED = 102,      /* a request: a reply was sent */
    SRP_REQUEST_SENT_ON = 103,       /* a request: broadcast on */
    SRP_REQUEST_NOT_ANSWERED = 104,  /* a request: no reply, the sequence number cannot rise */
    SRP_REPLY_UNASKED = 111,         /* a reply: at its destination, or matching no request here; nothing done */
    SRP_OWN_NOT_ABOVE = 112,         /* the own label is not above the advertised one */
    SRP_CACHED_NOT_ABOVE = 113,      /* the cached label is not above the advertised one */
    SRP_DOES_NOT_FIT = 114,          /* no new label has a denominator up to 4,294,967,295 */
    SRP_REPLY_TAKEN = 115,           /* a reply: label and successor taken */
    SRP_ERROR_NONE_REMOVED = 121,    /* an error: no successor removed */
    SRP_ERROR_NONE_EMPTIED = 122,    /* an error: removed, no row emptied */
    SRP_ERROR_EMPTIED = 123,         /* an error: rows emptied, and told on */
    SRP_TRACE_ARRIVED = 131,         /* Trace: at the destination */
    SRP_TRACE_NO_SUCCESSOR = 132,    /* Trace: at an empty row */
    SRP_TRACE_ENDLESS = 133          /* Trace: n - 1 hops and neither */
};

/* Kinds of packets. */
enum srp_packet_kind { SRP_REQUEST = 1, SRP_REPLY = 2, SRP_ERROR = 3 };

/* Kinds of a script's events. Give up, Deliver, Lose and Duplicate do not use operand b. */
enum srp_event_kind {
    SRP_EVENT_UP = 1,
    SRP_EVENT_DOWN = 2,
    SRP_EVENT_SOLICIT = 3,
    SRP_EVENT_GIVE_UP = 4,
    SRP_EVENT_EXPIRE = 5,
    SRP_EVENT_DELIVER = 6,
    SRP_EVENT_LOSE = 7,
    SRP_EVENT_DUPLICATE = 8,
    SRP_EVENT_TRACE = 9
};

/* Limits. */
#define SRP_MIN_STATIONS 2
#define SRP_MAX_STATIONS 16
#define SRP_MAX_SUCCESSORS 4
#define SRP_MAX_PACKETS 128 /* in the air, and the highest air limit */
#define SRP_MAX_EVENTS 4096
#define SRP_MAX_TURNS 69136 /* of srp_drain */
#define SRP_PRINTOUT_BYTES 184320 /* the room that srp_rehearse asks for */

/* The memory: its length, where each part begins, and how many bytes an entry has. */
#define SRP_LENGTH 40932
#define SRP_VERSION 19 /* the number that byte 0 of the memory has; with another the bytes have no meaning */

#define SRP_VERSION_AT 0     /* SRP_VERSION, 1 byte */
#define SRP_N_AT 1           /* n, 1 byte */
#define SRP_STATIONS_AT 2    /* 16 entries: what each station keeps */
#define SRP_LINKS_AT 226     /* 256 flags: the link is up */
#define SRP_LABELS_AT 482    /* 256 labels */
#define SRP_ROWS_AT 4578     /* 256 rows */
#define SRP_RECORDS_AT 30434 /* 256 records */
#define SRP_AIR_AT 36322     /* the number of packets in the air, 1 byte */
#define SRP_PACKETS_AT 36323 /* 128 packets */
#define SRP_LIMIT_AT 40931   /* the air limit, 1 byte */

#define SRP_STATION_BYTES 14
#define SRP_LABEL_BYTES 16
#define SRP_ENTRY_BYTES 25
#define SRP_ROW_BYTES 101
#define SRP_RECORD_BYTES 23
#define SRP_PACKET_BYTES 36
#define SRP_PREVIEW_BYTES 119

/* What a station keeps of its own requests and sendings: where its fields stand from its first byte on. */
#define SRP_STATION_NUMBER 0 /* the last request number, 4 bytes */
#define SRP_STATION_SOUGHT 4 /* the destination last sought */
#define SRP_STATION_ACTIVE 5 /* a flag: the station is active */
#define SRP_STATION_SERIAL 6 /* the last serial, 8 bytes; 0 before its first sending */

/* A label. */
#define SRP_LABEL_S 0 /* 8 bytes */
#define SRP_LABEL_M 8 /* 4 bytes */
#define SRP_LABEL_D 12 /* 4 bytes */

/* A row: the number of its successors, then 4 entries of SRP_ENTRY_BYTES. */
#define SRP_ROW_COUNT 0
#define SRP_ROW_ENTRIES 1

/* An entry of a row. */
#define SRP_ENTRY_STATION 0
#define SRP_ENTRY_LABEL 1   /* the label that the station advertised */
#define SRP_ENTRY_SERIAL 17 /* the serial of the reply that made the entry, 8 bytes */

/* A record. */
#define SRP_RECORD_NUMBER 0 /* 4 bytes; 0: none */
#define SRP_RECORD_DESTINATION 4
#define SRP_RECORD_CACHED 5 /* a label: C of 01 */
#define SRP_RECORD_LAST_HOP 21
#define SRP_RECORD_PASSED 22 /* a flag: a reply was passed on */

/* A packet. */
#define SRP_PACKET_SENDER 0
#define SRP_PACKET_RECEIVER 1
#define SRP_PACKET_KIND 2
#define SRP_PACKET_SOURCE 3      /* request, reply; else 0 */
#define SRP_PACKET_NUMBER 4      /* request, reply; else 0; 4 bytes */
#define SRP_PACKET_DESTINATION 8 /* request, reply; else 0 */
#define SRP_PACKET_LABEL 9       /* request, reply; else zeros */
#define SRP_PACKET_RESET 25      /* request, a flag; else 0 */
#define SRP_PACKET_MASK 26       /* error; else 0; 2 bytes, weight 2^t for destination t */
#define SRP_PACKET_SERIAL 28     /* the serial of its sending, 8 bytes */

/* What srp_preview shows. */
#define SRP_PREVIEW_LABEL 0  /* a label */
#define SRP_PREVIEW_ROW 16   /* a row */
#define SRP_PREVIEW_MASK 117 /* 2 bytes, weight 2^t for destination t */

/* Where the part of station i, of station i for station t, and of packet k stands. */
#define SRP_PLACE(i, t) (SRP_MAX_STATIONS * (size_t)(i) + (size_t)(t))
#define SRP_STATION_AT(i) (SRP_STATIONS_AT + SRP_STATION_BYTES * (size_t)(i))
#define SRP_LINK_AT(lower, higher) (SRP_LINKS_AT + SRP_PLACE(lower, higher))
#define SRP_LABEL_AT(i, t) (SRP_LABELS_AT + SRP_LABEL_BYTES * SRP_PLACE(i, t))
#define SRP_ROW_AT(i, t) (SRP_ROWS_AT + SRP_ROW_BYTES * SRP_PLACE(i, t))
#define SRP_RECORD_AT(i, source) (SRP_RECORDS_AT + SRP_RECORD_BYTES * SRP_PLACE(i, source))
#define SRP_PACKET_AT(k) (SRP_PACKETS_AT + SRP_PACKET_BYTES * (size_t)(k))

/* Little-endian numbers of 2, 4 and 8 bytes. */
static inline uint16_t srp_read2(const uint8_t *at)
{
    return (uint16_t)(at[0] | (unsigned)at[1] << 8);
}

static inline uint32_t srp_read4(const uint8_t *at)
{
    return srp_read2(at) | (uint32_t)srp_read2(at + 2) << 16;
}

static inline uint64_t srp_read8(const uint8_t *at)
{
    return srp_read4(at) | (uint64_t)srp_read4(at + 4) << 32;
}

/* ---- The calls ------------------------------------------------------------------------------ */

/*
 * Open: a fresh network of n stations, each with the label (start, 0/1) for itself, and an air
 * limit.
 * Refused: 1 where length is below SRP_LENGTH, n is not 2 to 16, or start is 0; 14 where limit is
 * over SRP_MAX_PACKETS. What stands in memory before is not read. Answer 0, count 0.
 */
uint64_t srp_open(uint8_t *memory, size_t length, size_t n, uint64_t start, size_t limit);

/* Up: the link of a and b is up. Refused: 1 (memory), 2, 3 if it is up. Answer 0, count 0. */
uint64_t srp_up(uint8_t *memory, size_t length, size_t a, size_t b);

/*
 * Down: the link of a and b is down, the packets between them are dropped, each leaves the other's
 * rows, whatever the entry's serial; then a, then b, broadcasts an error for its rows that this emptied.
 * Refused: 1 (memory), 2, 3 if it is down, 13 (a or b), 7. Answer 0; count: the errors sent.
 */
uint64_t srp_down(uint8_t *memory, size_t length, size_t a, size_t b);

/*
 * Solicit: a seeks a route to t. It is active, and broadcasts a request with its next request number.
 * Refused: 1 (memory), 2, 4 if a is active, 8 if its last request number is 4,294,967,295, 13 (a), 7.
 * Answer 0; count: the requests sent.
 */
uint64_t srp_solicit(uint8_t *memory, size_t length, size_t a, size_t t);

/*
 * Give up: a is passive.
 * Refused: 1 (memory), 2 if a is not below n, 5 if a is passive. Answer 0, count 0.
 */
uint64_t srp_give_up(uint8_t *memory, size_t length, size_t a);

/* Expire: a's row for t is empty. Refused: 1 (memory), 2. Answer 0, count 0. */
uint64_t srp_expire(uint8_t *memory, size_t length, size_t a, size_t t);

/*
 * Deliver: packet k, from 0, leaves the air and its receiver acts. An error takes its sender out of a
 * row only where its serial is not lower than the entry's: one that was sent before the reply is too late.
 * Refused: 1 (memory), 6 if k is not below the packets in the air, 13 (the receiver), 7.
 * Answer: 101 to 104 for a request, 111 to 115 for a reply, 121 to 123 for an error; count: the
 * packets sent.
 */
uint64_t srp_deliver(uint8_t *memory, size_t length, size_t k);

/* Lose: packet k leaves the air. Refused: 1 (memory), 6. Answer 0, count 0. */
uint64_t srp_lose(uint8_t *memory, size_t length, size_t k);

/*
 * Duplicate: a copy of packet k is last in the air. Refused: 1 (memory), 6, 7. Answer 0, count 0:
 * the copy does not count as sent, and has the packet's serial.
 */
uint64_t srp_duplicate(uint8_t *memory, size_t length, size_t k);

/* What srp_drain counts. */
#define SRP_DELIVERIES(r) SRP_FIRST_COUNT(r)
#define SRP_LOSSES(r) SRP_SECOND_COUNT(r)

/*
 * Drain: until the air is empty, packet 0 is delivered, or lost where srp_deliver would give 13 or 7: memory
 * is left as by these single calls. Refused: 1 (memory). Answer 0; two counts: the packets delivered
 * and the packets lost. With p packets in the air before, the two together are at most
 * p + p n (n - 1) + p n + (n - 1) (n (n - 1) + p + p n), which is SRP_MAX_TURNS for 16 stations and
 * 128 packets, and no more for any other. examples/drain.c shows where a network settles.
 */
uint64_t srp_drain(uint8_t *memory, size_t length);

/* The tally of a run or a rehearsal: its events, and the most packets in the air after one. */
#define SRP_CALLS(r) (SRP_SECOND_COUNT(r) & 0xffffu)
#define SRP_HIGHEST(r) (SRP_SECOND_COUNT(r) >> 16)

/*
 * The line of an event in one number: its answer (the refusal or outcome number, 0 if neither) in
 * the lowest 32 bits, then 8 bits each for the packets sent (0 if refused, and for Duplicate), the
 * packets in the air after it, and the hops (0 but for an accepted Trace).
 */
#define SRP_LINE_ANSWER(l) ((uint32_t)((l) & 0xffffffffu))
#define SRP_LINE_SENT(l) ((uint32_t)((l) >> 32 & 0xffu))
#define SRP_LINE_AIR(l) ((uint32_t)((l) >> 40 & 0xffu))
#define SRP_LINE_HOPS(l) ((uint32_t)((l) >> 48 & 0xffu))

/*
 * Run: E = kinds_length events one after the other, by their kinds and pairs of operands as in a
 * script. The line of each goes to the first E numbers of lines; numbers past these are kept. An
 * event that is turned down has its number in its line and changes nothing, and the next one
 * follows: memory is left as by these single calls.
 * Refused: 10 where E is over 4,096 or operands_length is not 2E; 1 (memory); 11 where a kind is
 * not 1 to 9 or an unused operand is not 0; 12 where lines_length is below E.
 * Answer 0; two counts: 0, and the tally, taken apart by SRP_CALLS and SRP_HIGHEST.
 */
uint64_t srp_run(uint8_t *memory, size_t length, const uint8_t *kinds, size_t kinds_length,
                 const uint8_t *operands, size_t operands_length, uint64_t *lines,
                 size_t lines_length);

/*
 * Trace: from a to the first entry of the row for t, again and again. It changes nothing.
 * Refused: 1 (memory), 2. Answer: 131 at t, 132 at an empty row, 133 after n - 1 hops with neither;
 * count: the hops. 133 comes only of memory that no list of calls from srp_open leaves.
 */
uint64_t srp_trace(const uint8_t *memory, size_t length, size_t a, size_t t);

/*
 * Preview: what srp_deliver of packet k would do, before it lands. Memory is only read. Refused, answer and
 * count: as of srp_deliver, and then 12 where out is shorter than SRP_PREVIEW_BYTES. Turned down, out is as it
 * was. Else the first SRP_PREVIEW_BYTES of out hold three parts, and the bytes past them are kept:
 *   SRP_PREVIEW_LABEL, SRP_PREVIEW_ROW: after a request or a reply (101 to 115) the label and the row that its
 *     receiver would then have for the packet's destination, shown as srp_label and srp_row show them; where
 *     the receiver is the destination, its own label and its empty row. Zeros after an error.
 *   SRP_PREVIEW_MASK: after an error (121 to 123) the mask of the destinations for which its receiver's row
 *     would be emptied, 0 for 121 and 122; 2 bytes, weight 2^t for destination t. 0 after a request or a reply.
 * examples/preview.c prints them.
 */
uint64_t srp_preview(const uint8_t *memory, size_t length, size_t k, uint8_t *out, size_t out_length);

/* ---- Scripts -------------------------------------------------------------------------------- */

/* The length of a script of so many events, and what srp_read_script counts. */
#define SRP_SCRIPT_BYTES(events) (11 + 3 * (size_t)(events))
#define SRP_EVENTS(r) (SRP_COUNT(r) & 0xffffu)
#define SRP_STATIONS(r) (SRP_COUNT(r) >> 16)

/*
 * Reads a script: n (1 byte), the number of events E (2), start (8), E kinds, E pairs of operands.
 * The kinds go to the first E bytes of kinds, the operands to the first 2E bytes of operands; bytes
 * past these are kept.
 * Refused: 9 under 11 bytes; 10 where E is over 4,096 or the script is not 11 + 3E bytes; 1 where n
 * is not 2 to 16 or start is 0; 11 where a kind is not 1 to 9 or an unused operand is not 0; 12
 * where kinds is shorter than E or operands shorter than 2E.
 * Answer 0; count: E + 65536 n, taken apart by SRP_EVENTS and SRP_STATIONS.
 */
uint64_t srp_read_script(const uint8_t *script, size_t script_length, uint8_t *kinds, size_t kinds_length,
                         uint8_t *operands, size_t operands_length);

/*
 * The start of a script that reads, which is never 0. It is 0 for every other script: one that
 * srp_read_script turns down with 9, 10, 1 or 11. The whole result is the number: no answer, no count.
 */
uint64_t srp_script_start(const uint8_t *script, size_t length);

/*
 * Writes a script of E = kinds_length events to the first 11 + 3E bytes of out; bytes past these are
 * kept.
 * Refused: 10 where E is over 4,096 or operands_length is not 2E; 1 where n is not 2 to 16 or start
 * is 0; 11 where a kind is not 1 to 9 or an unused operand is not 0; 12 where out is shorter than
 * 11 + 3E. Answer 0; count: the bytes written.
 */
uint64_t srp_write_script(size_t n, uint64_t start, const uint8_t *kinds, size_t kinds_length,
                          const uint8_t *operands, size_t operands_length, uint8_t *out, size_t out_length);

/* The length of the text that srp_rehearse writes. */
#define SRP_TEXT_LENGTH(r) SRP_FIRST_COUNT(r)

/*
 * Rehearse: a script's events on a fresh network, opened with the script's n and start and this air
 * limit. The lines of the events and of the labels after them, as the rehearsal program prints them
 * with limit 128, go to the first bytes of out; bytes past the text are kept, and no 0 ends it.
 * Refused: 9, 10, 1, 11 as of srp_read_script; 14 where limit is over SRP_MAX_PACKETS; 12 where
 * out_length is below SRP_PRINTOUT_BYTES, which has room for every text.
 * Answer 0; two counts: the length of the text, SRP_TEXT_LENGTH, and the tally, taken apart by
 * SRP_CALLS and SRP_HIGHEST.
 */
uint64_t srp_rehearse(const uint8_t *script, size_t script_length, size_t limit, uint8_t *out,
                      size_t out_length);

/* ---- New label ------------------------------------------------------------------------------ */

/*
 * New label from the own label A, the cached label C and the advertised label V. Where C and V have
 * one s and A itself is not taken, the new fraction is the one strictly between V's and C's with the
 * least denominator.
 * Where a label is taken, its d is the high half of the result and never 0, its m is the low half,
 * and its s is advertised_s. Where none is, the high half is 0 and the low half a number: 1 if one of
 * the three is out of range (neither (0, 1/1) nor s > 0 and m < d), 112 if A is not above V, 113 if C
 * is not above V, 114 if the new denominator would be over 4,294,967,295, tested in this order.
 */
uint64_t srp_new_label(uint64_t own_s, uint32_t own_m, uint32_t own_d, uint64_t cached_s, uint32_t cached_m,
                       uint32_t cached_d, uint64_t advertised_s, uint32_t advertised_m, uint32_t advertised_d);

/* Whether srp_new_label took a label, and its m and d. */
#define SRP_LABEL_TAKEN(r) (SRP_COUNT(r) != 0)
#define SRP_TAKEN_M(r) SRP_ANSWER(r)
#define SRP_TAKEN_D(r) SRP_COUNT(r)

/* ---- Showing -------------------------------------------------------------------------------- */

/* These change nothing in memory. Answer 0. */

/* Count: n. Refused: 1 (memory). */
uint64_t srp_size(const uint8_t *memory, size_t length);

/* Count: the packets in the air. Refused: 1 (memory). */
uint64_t srp_air(const uint8_t *memory, size_t length);

/* Count: the air limit. Refused: 1 (memory). */
uint64_t srp_limit(const uint8_t *memory, size_t length);

/* Count: 1 if the link of a and b is up, else 0. Refused: 1 (memory), 2. */
uint64_t srp_link(const uint8_t *memory, size_t length, size_t a, size_t b);

/*
 * The functions below write to the first bytes of out, and count the bytes written. The bytes are
 * those of the layout; bytes of out past them are kept. The last refusal of each is 12, where out is
 * shorter than the bytes.
 */

/*
 * Station i's label for t, SRP_LABEL_BYTES. i may equal t: a station's own label.
 * Refused: 1 (memory), 2 if i or t is not below n, 12.
 */
uint64_t srp_label(const uint8_t *memory, size_t length, size_t i, size_t t, uint8_t *out, size_t out_length);

/*
 * Station i's row for t, SRP_ROW_BYTES; entries past its count are zeros. i may equal t: an own row,
 * which is empty. Refused: 1 (memory), 2 if i or t is not below n, 12.
 */
uint64_t srp_row(const uint8_t *memory, size_t length, size_t i, size_t t, uint8_t *out, size_t out_length);

/* Station i's record for another source, SRP_RECORD_BYTES. Refused: 1 (memory), 2, 12. */
uint64_t srp_record(const uint8_t *memory, size_t length, size_t i, size_t source, uint8_t *out, size_t out_length);

/*
 * What station i keeps of its own requests and sendings, SRP_STATION_BYTES.
 * Refused: 1 (memory), 2 if i is not below n, 12.
 */
uint64_t srp_station(const uint8_t *memory, size_t length, size_t i, uint8_t *out, size_t out_length);

/* Packet k, SRP_PACKET_BYTES. Refused: 1 (memory), 6 if k is not below the packets in the air, 12. */
uint64_t srp_packet(const uint8_t *memory, size_t length, size_t k, uint8_t *out, size_t out_length);

/* ---- Searching a row ------------------------------------------------------------------------ */

/* What srp_find counts: the place of the first entry that names the station, and the places looked at. */
#define SRP_FOUND_AT(r) (SRP_COUNT(r) & 0xffffu)
#define SRP_LOOKED_AT(r) (SRP_COUNT(r) >> 16)

/*
 * Find: where a station stands in a row, as srp_row and srp_preview show one. The search ends at the first entry
 * that names the station. SRP_FOUND_AT is that entry's place, from 0, and SRP_LOOKED_AT one more; both are the
 * row's count where no entry names it. What it tells depends on the row's count and stations alone: the row
 * may be of no network, and name a station twice.
 * Refused: 1 where length is below SRP_ROW_BYTES or the row's count is over SRP_MAX_SUCCESSORS, 2 where station is
 * not below SRP_MAX_STATIONS. Answer 0; count: the place + 65536 times the places looked at.
 */
uint64_t srp_find(const uint8_t *row, size_t length, size_t station);

#ifdef __cplusplus
}
#endif

#endif

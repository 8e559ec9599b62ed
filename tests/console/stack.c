/*
 * The stack that a call needs. Each entry point is called on a stack of its own that was painted before; what is not as painted
 * afterwards was used. Prints the largest use of each over the networks below, and fails where one is over the limit.
 */
#define _POSIX_C_SOURCE 200809L
#include <pthread.h>
#include <stdio.h>
#include <stdlib.h>
#include <string.h>

#include "srp.h"

enum { STACK = 1 << 20, LIMIT = 256 * 1024, PAINT = 0xa5, ROOM = 12299 };

/*
 * The ends of the split that needs the longest search, neighbours among Fibonacci's fractions: of labels in range none needs more turns from left
 * to right. What lies between has the denominator 4,807,526,976, which does not fit.
 */
#define DEEP_HIGH_M 1134903170u
#define DEEP_HIGH_D 1836311903u
#define DEEP_LOW_M 1836311903u
#define DEEP_LOW_D 2971215073u

/* What a call is made on. */
struct frame {
    uint8_t memory[SRP_LENGTH];
    uint8_t script[ROOM];
    size_t script_length;
    uint8_t kinds[SRP_MAX_EVENTS];
    uint8_t operands[2 * SRP_MAX_EVENTS];
    uint64_t lines[SRP_MAX_EVENTS];
    uint8_t out[SRP_PRINTOUT_BYTES];
    size_t a, b, k;
    uint64_t result;
    void (*call)(struct frame *);
};

static void call_open(struct frame *f) { f->result = srp_open(f->memory, SRP_LENGTH, 16, 1, SRP_MAX_PACKETS); }
static void call_up(struct frame *f) { f->result = srp_up(f->memory, SRP_LENGTH, f->a, f->b); }
static void call_down(struct frame *f) { f->result = srp_down(f->memory, SRP_LENGTH, f->a, f->b); }
static void call_solicit(struct frame *f) { f->result = srp_solicit(f->memory, SRP_LENGTH, f->a, f->b); }
static void call_give_up(struct frame *f) { f->result = srp_give_up(f->memory, SRP_LENGTH, f->a); }
static void call_expire(struct frame *f) { f->result = srp_expire(f->memory, SRP_LENGTH, f->a, f->b); }
static void call_deliver(struct frame *f) { f->result = srp_deliver(f->memory, SRP_LENGTH, f->k); }
static void call_lose(struct frame *f) { f->result = srp_lose(f->memory, SRP_LENGTH, f->k); }
static void call_duplicate(struct frame *f) { f->result = srp_duplicate(f->memory, SRP_LENGTH, f->k); }
static void call_drain(struct frame *f) { f->result = srp_drain(f->memory, SRP_LENGTH); }
static void call_trace(struct frame *f) { f->result = srp_trace(f->memory, SRP_LENGTH, f->a, f->b); }
static void call_size(struct frame *f) { f->result = srp_size(f->memory, SRP_LENGTH); }
static void call_air(struct frame *f) { f->result = srp_air(f->memory, SRP_LENGTH); }
static void call_limit(struct frame *f) { f->result = srp_limit(f->memory, SRP_LENGTH); }
static void call_link(struct frame *f) { f->result = srp_link(f->memory, SRP_LENGTH, f->a, f->b); }
static void call_label(struct frame *f) { f->result = srp_label(f->memory, SRP_LENGTH, f->a, f->b, f->out, ROOM); }
static void call_row(struct frame *f) { f->result = srp_row(f->memory, SRP_LENGTH, f->a, f->b, f->out, ROOM); }
static void call_record(struct frame *f) { f->result = srp_record(f->memory, SRP_LENGTH, f->a, f->b, f->out, ROOM); }
static void call_station(struct frame *f) { f->result = srp_station(f->memory, SRP_LENGTH, f->a, f->out, ROOM); }
static void call_packet(struct frame *f) { f->result = srp_packet(f->memory, SRP_LENGTH, f->k, f->out, ROOM); }
static void call_preview(struct frame *f) { f->result = srp_preview(f->memory, SRP_LENGTH, f->k, f->out, ROOM); }
static void call_find(struct frame *f) { f->result = srp_find(f->memory + SRP_ROW_AT(8, 0), SRP_ROW_BYTES, f->a); }
static void call_new_label(struct frame *f)
{
    f->result = srp_new_label(0, 1, 1, 1, DEEP_HIGH_M, DEEP_HIGH_D, 1, DEEP_LOW_M, DEEP_LOW_D);
}
static void call_read_script(struct frame *f)
{
    f->result = srp_read_script(f->script, f->script_length, f->kinds, sizeof f->kinds, f->operands, sizeof f->operands);
}
static void call_script_start(struct frame *f) { f->result = srp_script_start(f->script, f->script_length); }
static void call_write_script(struct frame *f)
{
    f->result = srp_write_script(16, 1, f->kinds, SRP_MAX_EVENTS, f->operands, 2 * SRP_MAX_EVENTS, f->out, ROOM);
}
static void call_run(struct frame *f)
{
    f->result = srp_run(f->memory, SRP_LENGTH, f->kinds, SRP_MAX_EVENTS, f->operands, 2 * SRP_MAX_EVENTS, f->lines, SRP_MAX_EVENTS);
}
static void call_rehearse(struct frame *f)
{
    f->result = srp_rehearse(f->script, f->script_length, SRP_MAX_PACKETS, f->out, sizeof f->out);
}
static void call_nothing(struct frame *f) { f->result = 0; }

static void *on_own_stack(void *f)
{
    ((struct frame *)f)->call(f);
    return NULL;
}

static void must(int ok, const char *what)
{
    if (!ok) {
        fprintf(stderr, "console: %s failed\n", what);
        exit(1);
    }
}

/* The bytes of stack that a call uses, the thread's own among them. */
static size_t used_by(struct frame *f, void (*call)(struct frame *))
{
    void *stack;
    pthread_attr_t attributes;
    pthread_t thread;
    must(posix_memalign(&stack, 4096, STACK) == 0, "posix_memalign");
    memset(stack, PAINT, STACK);
    f->call = call;
    must(pthread_attr_init(&attributes) == 0, "pthread_attr_init");
    must(pthread_attr_setstack(&attributes, stack, STACK) == 0, "pthread_attr_setstack");
    must(pthread_create(&thread, &attributes, on_own_stack, f) == 0, "pthread_create");
    must(pthread_join(thread, NULL) == 0, "pthread_join");
    size_t unused = 0;
    while (unused < STACK && ((uint8_t *)stack)[unused] == PAINT) unused++;
    pthread_attr_destroy(&attributes);
    free(stack);
    return STACK - unused;
}

/* The same without what a thread uses that calls nothing. */
static size_t needed_by(struct frame *f, void (*call)(struct frame *))
{
    size_t none = used_by(f, call_nothing);
    size_t all = used_by(f, call);
    return all > none ? all - none : 0;
}

static struct {
    const char *name;
    void (*call)(struct frame *);
    uint32_t answer; /* what the call must answer here, so that it is not measured turned down */
    size_t most;
} calls[] = {
    {"srp_down", call_down, 0, 0},         {"srp_up", call_up, 0, 0},
    {"srp_solicit", call_solicit, 0, 0},   {"srp_give_up", call_give_up, 0, 0},
    {"srp_expire", call_expire, 0, 0},     {"srp_duplicate", call_duplicate, 0, 0},
    {"srp_lose", call_lose, 0, 0},         {"srp_size", call_size, 0, 0},
    {"srp_air", call_air, 0, 0},           {"srp_link", call_link, 0, 0},
    {"srp_label", call_label, 0, 0},       {"srp_row", call_row, 0, 0},
    {"srp_record", call_record, 0, 0},     {"srp_station", call_station, 0, 0},
    {"srp_packet", call_packet, 0, 0},     {"srp_write_script", call_write_script, 0, 0},
    {"srp_read_script", call_read_script, 0, 0}, {"srp_limit", call_limit, 0, 0},
    {"srp_run", call_run, 0, 0},
};

static size_t most_deliver;
static size_t most_drain;
static size_t most_preview;
static size_t most_trace;

static void report(const char *name, size_t bytes)
{
    printf("%-18s %7zu\n", name, bytes);
    if (bytes > LIMIT) {
        fprintf(stderr, "console: %s needs over %d bytes of stack\n", name, (int)LIMIT);
        exit(1);
    }
}

static void measure(struct frame *f, size_t i)
{
    size_t bytes = needed_by(f, calls[i].call);
    must(SRP_ANSWER(f->result) == calls[i].answer, calls[i].name);
    if (bytes > calls[i].most) calls[i].most = bytes;
}

/*
 * Previews and delivers the first packet until the air is empty, so that requests, replies and errors are measured; and drains a copy of the
 * network at once.
 */
static void deliver_all(struct frame *f)
{
    static struct frame copy;
    copy = *f;
    size_t drained = needed_by(&copy, call_drain);
    must(!SRP_REFUSED(copy.result) && SRP_DELIVERIES(copy.result) > 0, "srp_drain");
    if (drained > most_drain) most_drain = drained;
    f->k = 0;
    while (SRP_COUNT(srp_air(f->memory, SRP_LENGTH)) > 0) {
        size_t bytes = needed_by(f, call_preview);
        must(!SRP_REFUSED(f->result), "srp_preview");
        if (bytes > most_preview) most_preview = bytes;
        bytes = needed_by(f, call_deliver);
        must(!SRP_REFUSED(f->result), "srp_deliver");
        if (bytes > most_deliver) most_deliver = bytes;
    }
}

/* A number of so many bytes, the low byte first. */
static void put(uint8_t *at, unsigned bytes, uint64_t number)
{
    for (unsigned i = 0; i < bytes; i++) at[i] = (uint8_t)(number >> 8 * i);
}

static void put_label(uint8_t *at, uint64_t s, uint32_t m, uint32_t d)
{
    put(at + SRP_LABEL_S, 8, s);
    put(at + SRP_LABEL_M, 4, m);
    put(at + SRP_LABEL_D, 4, d);
}

/* The one packet in the air is a reply whose delivery needs the longest search: station 1 knows request 1 of 2 for 0, and 3 replies to it. */
static void put_deep_reply(struct frame *f)
{
    uint8_t *record = f->memory + SRP_RECORD_AT(1, 2), *packet = f->memory + SRP_PACKET_AT(0);
    call_open(f);
    put(record + SRP_RECORD_NUMBER, 4, 1);
    put_label(record + SRP_RECORD_CACHED, 1, DEEP_HIGH_M, DEEP_HIGH_D);
    record[SRP_RECORD_LAST_HOP] = 2;
    packet[SRP_PACKET_SENDER] = 3;
    packet[SRP_PACKET_RECEIVER] = 1;
    packet[SRP_PACKET_KIND] = SRP_REPLY;
    packet[SRP_PACKET_SOURCE] = 2;
    put(packet + SRP_PACKET_NUMBER, 4, 1);
    put_label(packet + SRP_PACKET_LABEL, 1, DEEP_LOW_M, DEEP_LOW_D);
    f->memory[SRP_AIR_AT] = 1;
    f->k = 0;
    call_preview(f);
    must(SRP_ANSWER(f->result) == SRP_DOES_NOT_FIT, "the reply that needs the longest search");
}

/*
 * The events that are measured as a run and as a rehearsal, as many as there may be: the ring below, whose station 8 seeks 0, and the errors of a
 * link that goes down; all is delivered. Traces follow.
 */
static void put_events(struct frame *f)
{
    memset(f->kinds, SRP_EVENT_TRACE, SRP_MAX_EVENTS);
    for (size_t i = 0; i < SRP_MAX_EVENTS; i++) f->operands[2 * i] = 8, f->operands[2 * i + 1] = 0;
    for (size_t i = 0; i < 16; i++) {
        f->kinds[i] = SRP_EVENT_UP;
        f->operands[2 * i] = (uint8_t)i, f->operands[2 * i + 1] = (uint8_t)((i + 1) % 16);
    }
    f->kinds[16] = SRP_EVENT_SOLICIT;
    for (size_t i = 17; i < 200; i++) f->kinds[i] = SRP_EVENT_DELIVER, f->operands[2 * i] = 0;
    f->kinds[100] = SRP_EVENT_DOWN, f->operands[201] = 1;
}

int main(void)
{
    static struct frame f;
    size_t opened = needed_by(&f, call_open);
    must(f.result == 0, "srp_open");

    /* Sixteen stations in a ring; station 8 seeks 0, and all is delivered. */
    for (size_t i = 0; i < 16; i++) must(srp_up(f.memory, SRP_LENGTH, i, (i + 1) % 16) == 0, "srp_up");
    f.a = 8, f.b = 0;
    measure(&f, 2);
    deliver_all(&f);
    most_trace = needed_by(&f, call_trace);
    must(SRP_ANSWER(f.result) == SRP_TRACE_ARRIVED, "srp_trace");

    /* Each other call once where it is accepted, then the errors of a link that goes down. */
    measure(&f, 2);
    measure(&f, 5);
    measure(&f, 14);
    measure(&f, 6);
    measure(&f, 3);
    for (size_t i = 7; i <= 13; i++) measure(&f, i);
    measure(&f, 17);
    measure(&f, 4);
    f.a = 0, f.b = 2;
    measure(&f, 1);
    f.a = 0, f.b = 1;
    measure(&f, 0);
    deliver_all(&f);
    put_deep_reply(&f);
    deliver_all(&f);

    put_events(&f);
    measure(&f, 15);
    memcpy(f.script, f.out, ROOM);
    f.script_length = SRP_COUNT(f.result);
    measure(&f, 16);
    call_open(&f);
    measure(&f, 18);
    must(SRP_LINE_ANSWER(f.lines[100]) == SRP_DONE && SRP_LINE_SENT(f.lines[100]) > 0, "the errors of srp_run");
    must(SRP_LINE_ANSWER(f.lines[199]) == SRP_NO_PACKET, "srp_run, to the last packet");
    size_t rehearsed = needed_by(&f, call_rehearse);
    must(!SRP_REFUSED(f.result) && SRP_CALLS(f.result) == SRP_MAX_EVENTS, "srp_rehearse");

    put_deep_reply(&f);
    f.kinds[0] = SRP_EVENT_DELIVER;
    f.operands[0] = f.operands[1] = 0;
    measure(&f, 18);
    must(SRP_LINE_ANSWER(f.lines[0]) == SRP_DOES_NOT_FIT, "srp_run, the longest search");

    printf("bytes of stack:\n");
    report("srp_open", opened);
    report("srp_deliver", most_deliver);
    report("srp_drain", most_drain);
    report("srp_preview", most_preview);
    report("srp_trace", most_trace);
    report("srp_rehearse", rehearsed);
    for (size_t i = 0; i < sizeof calls / sizeof calls[0]; i++) report(calls[i].name, calls[i].most);
    report("srp_script_start", needed_by(&f, call_script_start));
    report("srp_find", needed_by(&f, call_find));
    must(!SRP_REFUSED(f.result), "srp_find");
    report("srp_new_label", needed_by(&f, call_new_label));
    must(f.result == SRP_DOES_NOT_FIT, "srp_new_label");
    return 0;
}

/*
 * The speed of two builds of the library and the program, one beside the other. Prints the rows of a
 * table in Markdown.
 *
 * compare LIBRARY PROGRAM OTHER_LIBRARY OTHER_PROGRAM PACKETS LINKS: the libraries as shared objects.
 * PACKETS and LINKS are written, for the programs to run: a script of packets and one of links that come
 * and go.
 *
 * Each round times one build and then the other for some milliseconds, since the machine may not be
 * as fast in the next. A row has the medians of the rounds and of their ratios, and between which the
 * middle half of the ratios lies. Runs can lie further apart than the rounds of one: one run is not
 * enough.
 */
#define _GNU_SOURCE
#include "srp.h"

#include <dlfcn.h>
#include <fcntl.h>
#include <spawn.h>
#include <stdio.h>
#include <stdlib.h>
#include <string.h>
#include <sys/wait.h>
#include <time.h>
#include <unistd.h>

enum { ROUNDS = 101, CALLS = 100, STATIONS = 16, SEEKERS = 6, EVENTS = 4096 };

/* A build from before air limits has one argument less, and does not see the last. */
typedef uint64_t opening(uint8_t *memory, size_t length, size_t n, uint64_t start, size_t limit);
typedef uint64_t call_on_pair(uint8_t *memory, size_t length, size_t a, size_t b);
typedef uint64_t call_on_packet(uint8_t *memory, size_t length, size_t k);
typedef uint64_t call_alone(uint8_t *memory, size_t length);
typedef uint64_t reading(const uint8_t *script, size_t length, uint8_t *kinds, size_t kinds_length, uint8_t *operands, size_t operands_length);
typedef uint64_t writing(size_t n, uint64_t start, const uint8_t *kinds, size_t kinds_length, const uint8_t *operands, size_t operands_length,
                         uint8_t *out, size_t out_length);

struct build {
    const char *program;
    opening *open;
    call_on_pair *up, *down, *solicit;
    call_on_packet *deliver, *lose, *duplicate;
    reading *read_script;
    writing *write_script;
    call_alone *drain; /* NULL in a build that has none */

    /* What each timed call starts from, in the build's own layout, which may be an older one. */
    uint8_t network[SRP_LENGTH]; /* requests in the air, */
    uint8_t routes[SRP_LENGTH];  /* routes and an empty air, */
    uint8_t broken[SRP_LENGTH];  /* or the errors of a link that went down */
};

static uint8_t events[11 + 3 * EVENTS] = {STATIONS, EVENTS & 255, EVENTS >> 8, 1}; /* a script */
static const char *packets_script, *links_script;

static void fail(const char *what) {
    fprintf(stderr, "compare: %s\n", what);
    exit(1);
}

static void *found(void *library, const char *name) {
    void *symbol = dlsym(library, name);
    if (!symbol) fail(name);
    return symbol;
}

static void load(struct build *b, const char *path, const char *program) {
    void *library = dlopen(path, RTLD_NOW | RTLD_LOCAL);
    if (!library) fail(dlerror());
    b->program = program;
    b->open = found(library, "srp_open");
    b->up = found(library, "srp_up");
    b->down = found(library, "srp_down");
    b->solicit = found(library, "srp_solicit");
    b->deliver = found(library, "srp_deliver");
    b->lose = found(library, "srp_lose");
    b->duplicate = found(library, "srp_duplicate");
    b->read_script = found(library, "srp_read_script");
    b->write_script = found(library, "srp_write_script");
    b->drain = dlsym(library, "srp_drain");
}

static double now(void) {
    struct timespec t;
    clock_gettime(CLOCK_MONOTONIC, &t);
    return 1e9 * (double)t.tv_sec + (double)t.tv_nsec;
}

/* Sixteen stations, every link up, and the requests of some in the air. */
static void fill_network(struct build *b) {
    if (SRP_REFUSED(b->open(b->network, SRP_LENGTH, STATIONS, 1, SRP_MAX_PACKETS))) fail("open");
    for (size_t i = 0; i < STATIONS; i++)
        for (size_t j = i + 1; j < STATIONS; j++)
            if (SRP_REFUSED(b->up(b->network, SRP_LENGTH, i, j))) fail("up");
    for (size_t i = 0; i < SEEKERS; i++)
        if (SRP_REFUSED(b->solicit(b->network, SRP_LENGTH, i, STATIONS - 1))) fail("solicit");
}

/* Every station of a ring with chords sought 0, and all was delivered; in `broken` 0 lost its neighbour 1, and the errors are in the air. */
static void fill_routes(struct build *b) {
    if (SRP_REFUSED(b->open(b->routes, SRP_LENGTH, STATIONS, 1, SRP_MAX_PACKETS))) fail("open");
    for (size_t i = 0; i < STATIONS; i++) {
        b->up(b->routes, SRP_LENGTH, i, (i + 1) % STATIONS);
        b->up(b->routes, SRP_LENGTH, i, (i + 3) % STATIONS);
    }
    for (size_t i = 1; i < STATIONS; i++) {
        if (SRP_REFUSED(b->solicit(b->routes, SRP_LENGTH, i, 0))) fail("solicit");
        while (!SRP_REFUSED(b->deliver(b->routes, SRP_LENGTH, 0))) {}
    }
    memcpy(b->broken, b->routes, SRP_LENGTH);
    if (SRP_COUNT(b->down(b->broken, SRP_LENGTH, 0, 1)) == 0) fail("down: no error sent");
}

static void put_event(size_t index, size_t kind, size_t a, size_t b) {
    events[11 + index] = (uint8_t)kind;
    events[11 + EVENTS + 2 * index] = (uint8_t)a;
    events[11 + EVENTS + 2 * index + 1] = (uint8_t)b;
}

/* A script of as many events as may be: links, requests, and packets that arrive, are lost and are doubled; or requests, packets that arrive, and,
   one event of four, links that go down and come up. */
static void write_script(const char *path, int links) {
    uint64_t random = 1;
    size_t made = 0;
    for (size_t a = 0; a < STATIONS; a++)
        for (size_t b = a + 1; b < STATIONS; b += 3) put_event(made++, 1, a, b);
    while (made < EVENTS) {
        random = random * 6364136223846793005u + 1442695040888963407u;
        size_t choice = random >> 33 & 15, a = random >> 37 & 15, b = random >> 41 & 15;
        if (choice == 0) put_event(made++, 3, a, b);
        else if (links) put_event(made++, choice < 12 ? 6 : choice < 14 ? 1 : 2, choice < 12 ? 0 : a, choice < 12 ? 0 : b);
        else put_event(made++, choice < 10 ? 6 : choice < 13 ? 7 : 8, a / 2, 0);
    }
    FILE *file = fopen(path, "wb");
    if (!file || fwrite(events, sizeof events, 1, file) != 1 || fclose(file)) fail("the script");
}

/* Nanoseconds for a call on a copy of a network, the copy included. */
static double timed_call(call_on_packet *call, const uint8_t *from, size_t k) {
    static uint8_t memory[SRP_LENGTH];
    double began = now();
    for (int i = 0; i < CALLS; i++) {
        memcpy(memory, from, SRP_LENGTH);
        if (SRP_REFUSED(call(memory, SRP_LENGTH, k))) fail("a call was turned down");
    }
    return (now() - began) / CALLS;
}

static double broadcast_on(const struct build *b) { return timed_call(b->deliver, b->network, 0); }
static double answered(const struct build *b) { return timed_call(b->deliver, b->network, STATIONS - 2); }
static double first_lost(const struct build *b) { return timed_call(b->lose, b->network, 0); }
static double last_lost(const struct build *b) { return timed_call(b->lose, b->network, SEEKERS * (STATIONS - 1) - 1); }
static double first_doubled(const struct build *b) { return timed_call(b->duplicate, b->network, 0); }
static double error_delivered(const struct build *b) { return timed_call(b->deliver, b->broken, 0); }

/* Nanoseconds for each packet that is delivered or lost where 90 are in the air. */
static double drained(const struct build *b) {
    static uint8_t memory[SRP_LENGTH];
    uint64_t turns = 0;
    double began = now();
    for (int i = 0; i < CALLS / 10; i++) {
        memcpy(memory, b->network, SRP_LENGTH);
        uint64_t r = b->drain(memory, SRP_LENGTH);
        if (SRP_REFUSED(r)) fail("drain");
        turns += SRP_DELIVERIES(r) + SRP_LOSSES(r);
    }
    return (now() - began) / (double)turns;
}

static double went_down(const struct build *b) {
    static uint8_t memory[SRP_LENGTH];
    double began = now();
    for (int i = 0; i < CALLS; i++) {
        memcpy(memory, b->routes, SRP_LENGTH);
        if (SRP_REFUSED(b->down(memory, SRP_LENGTH, 0, 1))) fail("down");
    }
    return (now() - began) / CALLS;
}

/* Nanoseconds for a script of 4,096 events that is read, and for one that is written. The arrays are not cleared. */
static double script_read(const struct build *b) {
    static uint8_t kinds[EVENTS], operands[2 * EVENTS];
    double began = now();
    for (int i = 0; i < CALLS; i++)
        if (SRP_REFUSED(b->read_script(events, sizeof events, kinds, sizeof kinds, operands, sizeof operands))) fail("read_script");
    return (now() - began) / CALLS;
}

static double script_written(const struct build *b) {
    static uint8_t out[sizeof events];
    double began = now();
    for (int i = 0; i < CALLS; i++)
        if (SRP_REFUSED(b->write_script(STATIONS, 1, events + 11, EVENTS, events + 11 + EVENTS, 2 * EVENTS, out, sizeof out))) fail("write_script");
    return (now() - began) / CALLS;
}

/* Nanoseconds for a whole run of the program. */
static double rehearsed(const struct build *b, const char *script) {
    posix_spawn_file_actions_t actions;
    char *const arguments[] = {(char *)b->program, NULL};
    pid_t child;
    int status;
    posix_spawn_file_actions_init(&actions);
    posix_spawn_file_actions_addopen(&actions, 0, script, O_RDONLY, 0);
    posix_spawn_file_actions_addopen(&actions, 1, "/dev/null", O_WRONLY, 0);
    double began = now();
    if (posix_spawn(&child, b->program, &actions, NULL, arguments, environ) || waitpid(child, &status, 0) != child || status) fail(b->program);
    double took = now() - began;
    posix_spawn_file_actions_destroy(&actions);
    return took;
}

static double packets_rehearsed(const struct build *b) { return rehearsed(b, packets_script); }
static double links_rehearsed(const struct build *b) { return rehearsed(b, links_script); }

static int ascending(const void *a, const void *b) {
    double x = *(const double *)a, y = *(const double *)b;
    return (x > y) - (x < y);
}

static void row(const char *what, double (*timed)(const struct build *), const struct build *this, const struct build *other) {
    static double here[ROUNDS], there[ROUNDS], ratios[ROUNDS];
    timed(this), timed(other);
    for (int i = 0; i < ROUNDS; i++) {
        here[i] = timed(this), there[i] = timed(other);
        ratios[i] = here[i] / there[i];
    }
    qsort(here, ROUNDS, sizeof *here, ascending);
    qsort(there, ROUNDS, sizeof *there, ascending);
    qsort(ratios, ROUNDS, sizeof *ratios, ascending);
    printf("| %s | %.0f | %.0f | %.2f | %.2f to %.2f |\n", what, here[ROUNDS / 2], there[ROUNDS / 2], ratios[ROUNDS / 2], ratios[ROUNDS / 4], ratios[ROUNDS * 3 / 4]);
}

int main(int count, char **arguments) {
    if (count != 7) fail("usage: compare LIBRARY PROGRAM OTHER_LIBRARY OTHER_PROGRAM PACKETS LINKS");
    /* Both on a page's first byte: how fast memory is copied hangs on how far the two places are apart, modulo 4,096. */
    static _Alignas(4096) struct build this, other;
    load(&this, arguments[1], arguments[2]);
    load(&other, arguments[3], arguments[4]);
    packets_script = arguments[5], links_script = arguments[6];
    fill_network(&this);
    fill_routes(&this);
    fill_network(&other);
    fill_routes(&other);
    write_script(links_script, 1);
    write_script(packets_script, 0);
    row("`srp_deliver` of a request, broadcast on", broadcast_on, &this, &other);
    row("`srp_deliver` of a request, answered", answered, &this, &other);
    row("`srp_lose` of the first of 90 packets", first_lost, &this, &other);
    row("`srp_lose` of the last", last_lost, &this, &other);
    row("`srp_duplicate` of the first", first_doubled, &this, &other);
    row("`srp_deliver` of an error", error_delivered, &this, &other);
    row("`srp_down`", went_down, &this, &other);
    if (this.drain && other.drain) row("a packet of `srp_drain`, 90 in the air", drained, &this, &other);
    row("a script of 4,096 events, read", script_read, &this, &other);
    row("a script of 4,096 events, written", script_written, &this, &other);
    row("a rehearsal of 4,096 events", packets_rehearsed, &this, &other);
    row("a rehearsal of 4,096 events, links that come and go", links_rehearsed, &this, &other);
    return 0;
}

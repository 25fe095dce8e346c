/* The longest of many calls of each kind, and how the others are spread: dover_admit, dover_step, dover_done,
   dover_next and dover_successor with so many jobs open, and takes that displace all held ones.
   usage: latency [CALLS [VERSION..]]     100000000 calls of each kind, by versions 3 and 4
   Writes a table as CSV: of each version, call and number of open jobs the longest call, and then how many calls took
   NS nanoseconds or more, up to the next row's. `nothing` is two looks at the clock with no call between: what the
   machine itself takes away. `examples/latency` reads the table. On standard error stands what the system did. */
#define _POSIX_C_SOURCE 200809L
#include <inttypes.h>
#include <stdio.h>
#include <stdlib.h>
#include <sys/mman.h>
#include <sys/resource.h>
#include <time.h>
#include "dover.h"

enum { ADMIT, STEP, TAKE, DONE, NEXT, SUCCESSOR, NOTHING, CALLS };
static const char *const names[CALLS] = {"dover_admit", "dover_step", "a take",  "dover_done",
                                         "dover_next",  "dover_successor", "nothing"};

/* Sixteen bins for each power of two. */
enum { BINS = 16 * 40 };
static struct {
    uint64_t bins[BINS], longest;
} seen[CALLS];
static uint64_t overhead; /* of two looks at the clock */
static dover engine;
static uint64_t runner; /* the job that has the processor */

static void fail(const char *what, uint32_t code) {
    fprintf(stderr, "latency: %s %" PRIu32 "\n", what, code);
    exit(1);
}

static uint64_t nanoseconds(void) {
    struct timespec now;
    clock_gettime(CLOCK_MONOTONIC, &now);
    return (uint64_t)now.tv_sec * 1000000000 + (uint64_t)now.tv_nsec;
}

static unsigned bin_of(uint64_t ns) {
    unsigned power = 0;
    if (ns < 16) return (unsigned)ns;
    while (ns >> power >= 32) power++;
    return 16 * power + (unsigned)(ns >> power);
}

static uint64_t least_of(unsigned bin) {
    return bin < 32 ? bin : (uint64_t)(16 + bin % 16) << (bin / 16 - 1);
}

static void add(int call, uint64_t from) {
    uint64_t ns = nanoseconds() - from;
    ns = ns > overhead ? ns - overhead : 0;
    if (ns > seen[call].longest) seen[call].longest = ns;
    seen[call].bins[bin_of(ns)]++;
}

static void show(uint32_t version, uint64_t jobs) {
    for (int call = 0; call < CALLS; call++) {
        for (unsigned bin = 0; bin < BINS; bin++)
            if (seen[call].bins[bin])
                printf("%" PRIu32 ",%s,%" PRIu64 ",%" PRIu64 ",%" PRIu64 ",%" PRIu64 "\n", version, names[call], jobs,
                       seen[call].longest, least_of(bin), seen[call].bins[bin]);
        seen[call].longest = 0;
        for (unsigned bin = 0; bin < BINS; bin++) seen[call].bins[bin] = 0;
    }
    fflush(stdout);
}

static uint64_t drawn(uint64_t below) {
    static uint64_t state = 88172645463325252;
    state ^= state << 13;
    state ^= state >> 7;
    state ^= state << 17;
    return state % below;
}

static void settle(uint64_t mark) {
    for (;;) {
        uint64_t from = nanoseconds();
        dover_decision d = dover_step(&engine, mark);
        add(d.kind == DOVER_TAKE ? TAKE : STEP, from);
        if (d.kind == DOVER_NONE) return;
        if (d.kind > DOVER_END) fail("kind", d.kind);
        if (d.kind == DOVER_RUN || d.kind == DOVER_PREEMPT || d.kind == DOVER_TAKE) runner = d.job;
    }
}

static void admit(uint64_t release, uint64_t work, uint64_t deadline, uint64_t value) {
    uint64_t from = nanoseconds();
    dover_admitted a = dover_admit(&engine, release, work, deadline, value);
    add(ADMIT, from);
    if (a.status != DOVER_ADMITTED) fail("status", a.status);
    settle(release);
}

/* The two calls that change nothing, and none. */
static void ask(void) {
    uint64_t from = nanoseconds();
    dover_due due = dover_next(&engine);
    add(NEXT, from);
    from = nanoseconds();
    dover_named named = dover_successor(&engine);
    add(SUCCESSOR, from);
    from = nanoseconds();
    add(NOTHING, from);
    if (due.status == DOVER_NOT_MADE || named.status == DOVER_NOT_MADE) fail("no engine", due.status);
}

static void start(uint32_t version, uint32_t ratio, uint64_t jobs) {
    dover_init(&engine, ratio, 1, version, (uint32_t)jobs + 2);
    if (dover_status(&engine) != DOVER_MADE) fail("no engine", dover_status(&engine));
}

static uint64_t value(void) { return 10 + drawn(990); }
static uint64_t deadline(uint64_t t) { return t + 1000000000 + drawn(1000000000); }

/* So many jobs wait. At each tick the one that has the processor is done with work left, and one comes. One job is
   given up at first: so version 4 goes by density from then on, since some job is always open. */
static void waiting(uint32_t version, uint64_t jobs, uint64_t rounds) {
    start(version, 100, jobs);
    settle(0);
    admit(0, 10, 10, 1000);
    admit(0, 10, 10, 10);
    for (uint64_t i = 1; i < jobs; i++) admit(0, 10, deadline(0), value());
    for (uint64_t t = 1; t <= rounds; t++) {
        settle(t);
        uint64_t from = nanoseconds();
        uint32_t status = dover_done(&engine, t, runner);
        add(DONE, from);
        if (status != DOVER_DONE) fail("done", status);
        settle(t);
        admit(t, 10, deadline(t), value());
        ask();
    }
    dover_drop(&engine);
}

/* Again and again so many jobs preempt each other, until one comes that is worth more than twice all of them, and takes
   the processor at once. It runs till the last of them is given up; then the engine is at rest. */
static void taking(uint32_t version, uint64_t jobs, uint64_t rounds) {
    uint64_t t = 0, more = 4 * jobs + 1;
    start(version, 1, jobs);
    for (uint64_t round = 0; round < rounds; round++) {
        for (uint64_t i = 0; i < jobs; i++) {
            settle(t + i);
            admit(t + i, 2, t + 3 * jobs + 10 - i, 2);
            ask();
        }
        settle(t + jobs);
        admit(t + jobs, more, t + jobs + more, more);
        t += jobs + more + 1;
        settle(t);
        if (dover_spare(&engine) != jobs + 2) fail("open jobs", dover_spare(&engine));
    }
    dover_drop(&engine);
}

static void look_at_the_clock(void) {
    overhead = 1000000;
    for (int i = 0; i < 100000; i++) {
        uint64_t from = nanoseconds(), ns = nanoseconds() - from;
        if (ns < overhead) overhead = ns;
    }
}

static void measure(uint32_t version, uint64_t calls) {
    static const uint64_t open[] = {10, 1000, 100000};
    for (int i = 0; i < 3; i++) {
        waiting(version, open[i], calls);
        taking(version, open[i], calls / 10 / open[i] + 1);
        show(version, open[i]);
    }
}

int main(int words, char **word) {
    uint64_t calls = words > 1 ? strtoull(word[1], NULL, 10) : 100000000;
    struct rusage used;
    if (calls == 0 || calls > 500000000) fail("CALLS is from 1 to 500000000, and not", (uint32_t)calls);
    if (mlockall(MCL_CURRENT | MCL_FUTURE)) fputs("latency: the memory isn't locked\n", stderr);
    look_at_the_clock();
    puts("version,call,jobs,longest,ns,calls");
    for (int i = 2; i < words; i++) measure((uint32_t)strtoul(word[i], NULL, 10), calls);
    if (words < 3) measure(3, calls);
    if (words < 3) measure(4, calls);
    getrusage(RUSAGE_SELF, &used);
    fprintf(stderr, "latency: %ld times another process had the processor, %ld pages were missing, two looks at the "
                    "clock take %" PRIu64 " ns\n", used.ru_nivcsw, used.ru_minflt + used.ru_majflt, overhead);
    return 0;
}

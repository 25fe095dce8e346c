// Nanoseconds of dover_admit, dover_step and dover_done with jobs waiting, and of a take over held jobs, beside a heap
// of the C++ library that does earliest deadline first on the same jobs. Prints the median, the 99.9% point and the
// greatest, how many bytes of stack the calls take, and what an overload of 2 that never rests comes to.
#include <algorithm>
#include <chrono>
#include <cinttypes>
#include <cstdio>
#include <cstdlib>
#include <queue>
#include <random>
#include <ucontext.h>
#include <vector>
#include "dover.h"

static unsigned long taken; // calls for memory of C
extern "C" {
void *__real_malloc(size_t);
void *__real_realloc(void *, size_t);
void *__wrap_malloc(size_t n);
void *__wrap_realloc(void *p, size_t n);
void *__wrap_malloc(size_t n) { taken++; return __real_malloc(n); }
void *__wrap_realloc(void *p, size_t n) { taken++; return __real_realloc(p, n); }
}

using Clock = std::chrono::steady_clock;
static uint64_t nanoseconds() {
    auto since = Clock::now().time_since_epoch();
    return static_cast<uint64_t>(std::chrono::duration_cast<std::chrono::nanoseconds>(since).count());
}

static uint64_t overhead; // of a look at the clock

struct Times {
    std::vector<uint32_t> all;
    Times() { all.reserve(4000000); }
    void add(uint64_t from) {
        uint64_t t = nanoseconds() - from;
        all.push_back(static_cast<uint32_t>(t > overhead ? t - overhead : 0));
    }
    void show(const char *name, uint64_t waiting) {
        if (all.empty()) return;
        std::sort(all.begin(), all.end());
        size_t n = all.size();
        std::printf("%-22s %8" PRIu64 " %9zu %8" PRIu32 " %8" PRIu32 " %10" PRIu32 "\n", name, waiting, n, all[n / 2],
                    all[n * 999 / 1000], all[n - 1]);
        all.clear();
    }
};

static Times admits, decisions, nones, takes, dones, pushes, pops;
static dover engine;
static uint64_t runner; // the job that has the processor

[[noreturn]] static void fail(const char *what, uint32_t code) {
    std::fprintf(stderr, "bench: %s %" PRIu32 "\n", what, code);
    std::exit(1);
}

static void settle(uint64_t mark) {
    for (;;) {
        uint64_t from = nanoseconds();
        dover_decision d = dover_step(&engine, mark);
        if (d.kind == DOVER_NONE) return nones.add(from);
        if (d.kind > DOVER_END) fail("kind", d.kind);
        (d.kind == DOVER_TAKE ? takes : decisions).add(from);
        if (d.kind == DOVER_RUN || d.kind == DOVER_PREEMPT || d.kind == DOVER_TAKE) runner = d.job;
    }
}

static void admit(uint64_t release, uint64_t work, uint64_t deadline, uint64_t value) {
    settle(release);
    uint64_t from = nanoseconds();
    dover_admitted a = dover_admit(&engine, release, work, deadline, value);
    admits.add(from);
    if (a.status != DOVER_ADMITTED) fail("status", a.status);
    settle(release);
}

static void start(uint32_t version) {
    dover_init(&engine, 1000, 1, version, 1000000);
    if (dover_status(&engine) != DOVER_MADE) fail("no engine", dover_status(&engine));
}

static void forget() { admits.all.clear(), decisions.all.clear(), nones.all.clear(), takes.all.clear(); }

struct Job {
    uint64_t deadline, work, number;
    bool operator<(const Job &other) const { return deadline > other.deadline; }
};

// So many wait; every ten ticks one comes and one is served.
static void steady(uint64_t waiting, uint64_t rounds) {
    std::mt19937_64 random(1);
    std::vector<Job> jobs;
    for (uint64_t i = 0; i < waiting + rounds; i++) jobs.push_back({1000000000 + random() % 1000000000, 10, i});
    start(1);
    unsigned long before = taken;
    for (uint64_t i = 0; i < waiting; i++) admit(0, 10, jobs[i].deadline, 10 + i % 1000);
    forget();
    for (uint64_t i = 0; i < rounds; i++) admit(10 * (i + 1), 10, jobs[waiting + i].deadline, 10 + i % 1000);
    if (taken != before) fail("calls for memory", static_cast<uint32_t>(taken - before));
    admits.show("dover_admit", waiting);
    decisions.show("dover_step, decision", waiting);
    nones.show("dover_step, none", waiting);
    forget();
    dover_drop(&engine);
    std::priority_queue<Job> heap; // earliest deadline first: the one of earliest deadline runs for ten ticks
    for (uint64_t i = 0; i < waiting; i++) heap.push(jobs[i]);
    uint64_t sum = 0;
    for (uint64_t i = 0; i < rounds; i++) {
        uint64_t from = nanoseconds();
        heap.push(jobs[waiting + i]);
        pushes.add(from);
        from = nanoseconds();
        sum += heap.top().number;
        heap.pop();
        pops.add(from);
    }
    if (sum == 1) std::puts("");
    pushes.show("heap, push", waiting);
    pops.show("heap, top and pop", waiting);
}

// So many wait; at every tick the one that has the processor is done with work left, and one comes.
static void early(uint64_t waiting, uint64_t rounds) {
    std::mt19937_64 random(1);
    start(3);
    unsigned long before = taken;
    for (uint64_t i = 0; i < waiting; i++) admit(0, 10, 1000000000 + random() % 1000000000, 10 + i % 1000);
    forget();
    for (uint64_t t = 1; t <= rounds; t++) {
        settle(t);
        uint64_t from = nanoseconds();
        uint32_t status = dover_done(&engine, t, runner);
        dones.add(from);
        if (status != DOVER_DONE) fail("done", status);
        admit(t, 10, 1000000000 + random() % 1000000000, 10 + t % 1000);
    }
    if (taken != before) fail("calls for memory", static_cast<uint32_t>(taken - before));
    dones.show("dover_done", waiting);
    decisions.show("dover_step behind it", waiting);
    forget();
    dover_drop(&engine);
}

// So many are held when one that is worth more than all comes at its latest start.
static void take(uint64_t held, int times) {
    for (int i = 0; i < times; i++) {
        start(1);
        uint64_t due = 30 * held + 3000000, left = due - 10 * held - 500;
        admit(0, left, due, left);
        for (uint64_t j = 1; j <= held; j++) admit(j, 10, due - j, 10);
        uint64_t t = held + 1;
        admit(t, 1000000, t + 1000000, 1000000000);
        settle(t + 1);
        dover_drop(&engine);
    }
    if (takes.all.size() != static_cast<size_t>(times)) fail("takes", static_cast<uint32_t>(takes.all.size()));
    takes.show("dover_step, a take", held);
    forget();
}

static void plain_settle(uint64_t mark) {
    dover_decision d;
    do d = dover_step(&engine, mark);
    while (d.kind != DOVER_NONE && d.kind <= DOVER_END);
}

// So many jobs, for which there is half the time that they want, to an engine for 1,000 open ones. Nothing is refused
// but 1,000,000 jobs behind the last moment of rest, till the open ones are over.
static void lasting(uint64_t jobs) {
    std::minstd_rand random(1);
    uint64_t t = 0, refused = 0, gaps = 0, from = nanoseconds();
    uint32_t last = DOVER_ADMITTED, least = 1000;
    dover_init(&engine, 16, 1, 1, 1000);
    unsigned long before = taken;
    for (uint64_t i = 0; i < jobs; i++) {
        t += random() % 16;
        plain_settle(t);
        least = std::min(least, dover_spare(&engine));
        uint64_t work = 1 + random() % 29, deadline = t + work + 20 + random() % 12000;
        uint32_t status = dover_admit(&engine, t, work, deadline, work * (1 + random() % 16)).status;
        if (status != DOVER_ADMITTED && status != DOVER_COUNT) fail("status", status);
        refused += status == DOVER_COUNT;
        gaps += status == DOVER_COUNT && last != status;
        last = status;
    }
    if (taken != before) fail("calls for memory", static_cast<uint32_t>(taken - before));
    uint64_t each = (nanoseconds() - from) / jobs;
    std::printf("overload of 2: %" PRIu64 " jobs in %" PRIu64 " ticks, %" PRIu64 " refused for their count in %" PRIu64
                " gaps, at most %" PRIu32 " open, %" PRIu64 " ns a job\n", jobs, t, refused, gaps, 1000 - least, each);
    dover_drop(&engine);
}

// Preemptions, a take, an abandonment and the end, with no calls but the engine's.
static void all_calls() {
    uint64_t t = 0;
    for (uint64_t round = 0; round < 10; round++) {
        uint64_t held = 30, left = 3000000 + 20 * held - 500, due = t + left + 10 * held + 500;
        plain_settle(t);
        dover_admit(&engine, t, left, due, left);
        for (uint64_t j = 1; j <= held; j++) {
            plain_settle(t + j);
            dover_admit(&engine, t + j, 10, due - j, 10);
        }
        t += held + 1;
        plain_settle(t);
        dover_admit(&engine, t, 1000000, t + 1000000, 1000000000);
        plain_settle(t = due + 1);
        if (dover_value(&engine) == 0 || dover_spare(&engine) != 1000) fail("some job is open", 0);
    }
    while (dover_finish(&engine).kind != DOVER_NONE) {}
}

static void make() { dover_init(&engine, 1000, 1, 1, 1000); }

#ifdef __SANITIZE_ADDRESS__ // the sanitizer keeps account of stacks of its own
static const bool watched = true;
#else
static const bool watched = false;
#endif

static uint64_t place[16384]; // a stack that is filled with a pattern
static ucontext_t here, there;

// How many bytes of it the calls write.
static size_t stack_of(void (*calls)()) {
    const uint64_t pattern = UINT64_C(0x5a5a5a5a5a5a5a5a);
    std::fill(std::begin(place), std::end(place), pattern);
    getcontext(&there);
    there.uc_stack.ss_sp = place, there.uc_stack.ss_size = sizeof place, there.uc_link = &here;
    makecontext(&there, calls, 0);
    swapcontext(&here, &there);
    return sizeof place - 8 * static_cast<size_t>(std::find_if(std::begin(place), std::end(place),
                                                               [](uint64_t word) { return word != pattern; }) - place);
}

static void show_stack() {
    size_t made = stack_of(make), called = stack_of(all_calls);
    dover_drop(&engine);
    std::printf("bytes of stack: dover_init %zu, the calls after it %zu\n", made, called);
}

int main(int words, char **) {
    overhead = 1000;
    for (int i = 0; i < 10000; i++) {
        uint64_t from = nanoseconds(), to = nanoseconds();
        overhead = std::min(overhead, to - from);
    }
    uint64_t rounds = words > 1 ? 2000 : 200000; // any word: a short run, to see that it runs
    std::printf("%-22s %8s %9s %8s %8s %10s   (ns)\n", "call", "jobs", "calls", "median", "99.9%", "greatest");
    for (uint64_t waiting : {10, 1000, 100000}) steady(waiting, rounds);
    for (uint64_t waiting : {10, 1000, 100000}) early(waiting, rounds);
    take(10, words > 1 ? 3 : 1000);
    take(1000, words > 1 ? 3 : 200);
    if (words == 1) take(100000, 20);
    if (!watched) show_stack();
    lasting(words > 1 ? 100000 : 10000000);
    return 0;
}

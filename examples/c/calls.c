/* Each cause of each call, calls where there is no engine, rest, two engines, and no memory after dover_init. Prints a
   line for each row that fails, and ends with 0 where none does. */
#include <stdio.h>
#include <string.h>
#include "dover.h"

static unsigned long taken; /* calls for memory */
static unsigned long given_back;
static int none; /* whether there is none */
void *__real_malloc(size_t);
void *__real_realloc(void *, size_t);
void __real_free(void *);
void *__wrap_malloc(size_t n);
void *__wrap_realloc(void *p, size_t n);
void __wrap_free(void *p);
void __wrap_free(void *p) { given_back++; __real_free(p); }
void *__wrap_malloc(size_t n) { taken++; return none ? NULL : __real_malloc(n); }
void *__wrap_realloc(void *p, size_t n) { taken++; return none ? NULL : __real_realloc(p, n); }

static dover a, b, never; /* for the last one no engine is made: it is zeros */
static int rows, failed;
#define ROW(holds) do { rows++; if (!(holds)) { failed++; printf("calls.c:%d: " #holds "\n", __LINE__); } } while (0)

static uint32_t status_of(uint32_t p, uint32_t q, uint32_t version, uint32_t capacity) {
    dover_init(&b, p, q, version, capacity);
    uint32_t status = dover_status(&b);
    dover_drop(&b);
    return status;
}
static uint32_t factor_status(uint32_t p, uint32_t version, uint32_t capacity, uint32_t f, uint32_t c) {
    dover_init_factor(&b, p, 1, version, capacity, f, c);
    uint32_t status = dover_status(&b);
    dover_drop(&b);
    return status;
}
static uint32_t settle(dover *d, uint64_t mark) {
    dover_decision e;
    while ((e = dover_step(d, mark)).kind != DOVER_NONE && e.kind <= DOVER_END) {}
    return e.kind;
}
static uint32_t admit(dover *d, uint64_t r, uint64_t c, uint64_t dl, uint64_t v) {
    return dover_admit(d, r, c, dl, v).status;
}

static int is_due(dover *d, uint64_t tick) {
    dover_due due = dover_next(d);
    return due.status == DOVER_DUE && due.tick == tick;
}
static int is_named(dover *d, uint32_t status, uint64_t job) {
    dover_named next = dover_successor(d);
    return next.status == status && next.job == job;
}
static int is_idle(dover *d, uint32_t status) {
    dover_due due = dover_next(d);
    return due.status == status && due.tick == 0;
}

static void making(void) {
    const uint64_t big = UINT64_C(1) << 63;
    ROW(status_of(1, 1, 0, 10) == DOVER_BAD_VERSION);
    ROW(status_of(1, 1, 5, 10) == DOVER_BAD_VERSION);
    ROW(status_of(1, 1, UINT32_MAX, 10) == DOVER_BAD_VERSION);
    ROW(status_of(1, 2, 1, 10) == DOVER_BAD_RATIO);
    ROW(status_of(1, 0, 1, 10) == DOVER_BAD_RATIO);
    ROW(status_of(1000001, 1, 1, 10) == DOVER_BAD_RATIO);
    ROW(status_of(UINT32_MAX, UINT32_MAX, 2, 10) == DOVER_BAD_RATIO);
    ROW(status_of(1, 1, 1, 1000001) == DOVER_BAD_CAPACITY);
    ROW(status_of(1, 1, 1, UINT32_MAX) == DOVER_BAD_CAPACITY);
    ROW(status_of(1, 1, 1, 0) == DOVER_MADE);
    ROW(status_of(1000000, 1, 2, 1000000) == DOVER_MADE);
    ROW(status_of(1000000, 1, 3, 1000000) == DOVER_MADE);
    ROW(factor_status(1, 1, 10, 2, 1) == DOVER_MADE && factor_status(1, 2, 10, 1000000, 1000) == DOVER_MADE);
    ROW(factor_status(1, 3, 10, 1001, 1000) == DOVER_MADE && factor_status(1, 3, 0, 3, 2) == DOVER_MADE);
    ROW(factor_status(1, 3, 10, 1, 1) == DOVER_BAD_FACTOR && factor_status(1, 3, 10, 2, 0) == DOVER_BAD_FACTOR);
    ROW(factor_status(1, 3, 10, 1000001, 1) == DOVER_BAD_FACTOR);
    ROW(factor_status(1, 3, 10, 2000, 1001) == DOVER_BAD_FACTOR);
    ROW(factor_status(0, 5, 1000001, 0, 0) == DOVER_BAD_VERSION);
    ROW(status_of(1000000, 1, 4, 1000000) == DOVER_MADE && factor_status(1, 4, 10, 2, 1) == DOVER_MADE);
    ROW(factor_status(0, 3, 1000001, 0, 0) == DOVER_BAD_RATIO);
    ROW(factor_status(1, 3, 1000001, 0, 0) == DOVER_BAD_FACTOR);
    ROW(factor_status(1, 3, 1000001, 2, 1) == DOVER_BAD_CAPACITY);
    none = 1;
    ROW(status_of(1, 1, 1, 10) == DOVER_NO_MEMORY && status_of(1, 1, 1, 1000001) == DOVER_BAD_CAPACITY);
    ROW(factor_status(1, 1, 10, 2, 1) == DOVER_NO_MEMORY);
    none = 0;
    dover_init(&b, 0, 0, 1, 10); /* no engine */
    ROW(admit(&b, 0, 1, 1, 1) == DOVER_NOT_MADE && dover_step(&b, 0).kind == DOVER_NO_ENGINE &&
        dover_finish(&b).kind == DOVER_NO_ENGINE);
    ROW(dover_value(&b) == 0 && dover_spare(&b) == 0 && is_idle(&b, DOVER_NOT_MADE) &&
        dover_step(&b, big).kind == DOVER_NO_ENGINE);
    dover_drop(&b);
}

/* Each call says that there is no engine. */
static int is_none(dover *d) {
    const uint64_t big = UINT64_C(1) << 63;
    dover_admitted x = dover_admit(d, 1, 1, 9, 1);
    dover_decision e = dover_step(d, 3), f = dover_step(d, big), g = dover_finish(d);
    return dover_status(d) == DOVER_EMPTY && x.status == DOVER_NOT_MADE && x.number == 0 &&
           e.kind == DOVER_NO_ENGINE && f.kind == DOVER_NO_ENGINE && g.kind == DOVER_NO_ENGINE &&
           e.tick + e.job + e.other == 0 && f.tick + f.job + f.other == 0 && g.tick + g.job + g.other == 0 &&
           dover_value(d) == 0 && dover_value_high(d) == 0 && dover_spare(d) == 0 && is_idle(d, DOVER_NOT_MADE) &&
           is_named(d, DOVER_NOT_MADE, 0) && dover_restart(d).status == DOVER_NOT_MADE;
}

static void without_one(void) {
    ROW(is_none(&never));
    dover_drop(&never);
    dover_drop(&never);
    ROW(is_none(&never));
    dover_init(&a, 1, 1, 1, 10);
    ROW(settle(&a, 0) == DOVER_NONE && admit(&a, 0, 2, 5, 2) == DOVER_ADMITTED && settle(&a, 1) == DOVER_NONE);
    unsigned long before = given_back;
    dover_drop(&a); /* with a job open */
    ROW(given_back > before && is_none(&a));
    before = given_back;
    dover_drop(&a);
    ROW(given_back == before && is_none(&a));
    dover_init(&a, 1, 1, 2, 10);
    ROW(dover_status(&a) == DOVER_MADE && dover_spare(&a) == 10 && dover_finish(&a).kind == DOVER_END);
    dover_drop(&a);
    ROW(is_none(&a));
    dover_init(&a, 1, 2, 2, 10);
    ROW(dover_status(&a) == DOVER_BAD_RATIO);
    dover_drop(&a);
    ROW(is_none(&a));
}

static void one_by_one(void) {
    const uint64_t big = UINT64_C(1) << 63, last = UINT64_C(1000000000000);
    dover_init(&a, 2, 1, 1, 3);
    dover_init(&b, 2, 1, 1, 0);
    unsigned long before = taken;
    ROW(dover_spare(&a) == 3 && dover_spare(&b) == 0);
    ROW(admit(&a, 0, 2, 2, 2) == DOVER_UNSETTLED);
    ROW(settle(&a, 0) == DOVER_NONE && settle(&b, 0) == DOVER_NONE);
    ROW(admit(&b, 0, 2, 2, 2) == DOVER_FULL);
    ROW(admit(&a, 0, 0, 2, 2) == DOVER_BAD_JOB && admit(&a, 0, 3, 2, 2) == DOVER_BAD_JOB &&
        admit(&a, 0, 2, 2, 0) == DOVER_BAD_JOB);
    ROW(admit(&a, 0, big, big, big) == DOVER_BAD_JOB && admit(&a, big, 1, 1, 1) == DOVER_UNSETTLED);
    ROW(admit(&a, 0, 1, last + 1, 1) == DOVER_BAD_JOB &&
        admit(&a, 0, UINT64_MAX, UINT64_MAX, UINT64_MAX) == DOVER_BAD_JOB);
    dover_admitted first = dover_admit(&a, 0, 2, 2, 2);
    ROW(first.status == DOVER_ADMITTED && first.number == 0);
    ROW(admit(&a, 0, 2, 9, 2) == DOVER_UNSETTLED);
    ROW(settle(&a, 0) == DOVER_NONE && admit(&a, 0, 2, 9, 5) == DOVER_DENSITY &&
        admit(&a, 0, 2, 9, 4) == DOVER_ADMITTED && dover_admit(&a, 0, 2, 9, 4).number == 0);
    ROW(settle(&a, 1) == DOVER_NONE && dover_value(&a) == 0 && dover_spare(&a) == 1);
    ROW(dover_step(&a, 0).kind == DOVER_FALLS && dover_step(&a, last + 1).kind == DOVER_LATE &&
        dover_step(&a, big).kind == DOVER_LATE);
    ROW(settle(&a, 4) == DOVER_NONE && dover_value(&a) == 6 && dover_spare(&a) == 3);
    ROW(dover_step(&a, 3).kind == DOVER_FALLS);
    dover_admitted third = dover_admit(&a, 4, 1, 5, 1000); /* no earlier job binds its density */
    ROW(third.status == DOVER_ADMITTED && third.number == 2);
    dover_decision e = dover_step(&a, 4);
    ROW(e.kind == DOVER_RELEASE && e.job == 2 && e.tick == 4);
    third = dover_admit(&a, 4, 1, 9, 1); /* the release was given, and not yet what is settled there */
    ROW(third.status == DOVER_UNSETTLED && third.number == 0);
    ROW((e = dover_finish(&a)).kind == DOVER_RUN && e.job == 2 && e.tick == 4);
    ROW(dover_step(&a, 4).kind == DOVER_FINISHED && admit(&a, 4, 1, 5, 1000) == DOVER_UNSETTLED);
    ROW((e = dover_finish(&a)).kind == DOVER_COMPLETE && e.job == 2 && e.tick == 5);
    ROW((e = dover_finish(&a)).kind == DOVER_END && e.tick == 1006 && dover_finish(&a).kind == DOVER_NONE &&
        dover_value(&a) == 1006);
    ROW(dover_finish(&b).kind == DOVER_END);
    ROW(taken == before);
    dover_drop(&a);
    dover_drop(&b);
}

/* The tick for which to call next. Each step to one before it gives nothing, and what comes there is given by a step to
   it, or to the one behind it where a latest start decides. */
static void sleeping(void) {
    dover_decision e;
    dover_init(&a, 1, 1, 1, 10);
    unsigned long before = taken;
    ROW(is_idle(&a, DOVER_IDLE) && settle(&a, 0) == DOVER_NONE && is_idle(&a, DOVER_IDLE));
    ROW(admit(&a, 0, 4, 6, 4) == DOVER_ADMITTED && is_due(&a, 0)); /* its release is to be given */
    ROW(settle(&a, 0) == DOVER_NONE && is_due(&a, 4));             /* it will be done */
    ROW(admit(&a, 0, 10, 12, 10) == DOVER_ADMITTED && settle(&a, 0) == DOVER_NONE && is_due(&a, 2)); /* a take */
    ROW(settle(&a, 1) == DOVER_NONE && is_due(&a, 2));
    ROW(settle(&a, 2) == DOVER_NONE && is_due(&a, 2)); /* a job of tick 2 may change it */
    ROW((e = dover_step(&a, 3)).kind == DOVER_TAKE && e.tick == 2 && is_due(&a, 2)); /* more may come */
    ROW(settle(&a, 3) == DOVER_NONE && is_due(&a, 4)); /* job 0 is given up at 4 */
    ROW((e = dover_step(&a, 5)).kind == DOVER_ABANDON && e.tick == 4 && settle(&a, 5) == DOVER_NONE);
    ROW(is_due(&a, 12) && settle(&a, 11) == DOVER_NONE && is_due(&a, 12));
    ROW((e = dover_step(&a, 12)).kind == DOVER_COMPLETE && e.tick == 12);
    ROW(is_idle(&a, DOVER_IDLE) && settle(&a, 12) == DOVER_NONE && is_idle(&a, DOVER_IDLE));
    ROW(admit(&a, 12, 2, 20, 2) == DOVER_ADMITTED && is_due(&a, 12)); /* anew, behind rest */
    ROW(settle(&a, 13) == DOVER_NONE && is_due(&a, 14) && dover_finish(&a).kind == DOVER_COMPLETE);
    ROW(is_idle(&a, DOVER_IDLE) && dover_finish(&a).kind == DOVER_END && is_idle(&a, DOVER_IDLE));
    ROW(taken == before);
    dover_drop(&a);
}

static int is_next(dover *d, uint64_t mark, uint32_t kind, uint64_t tick, uint64_t job) {
    dover_decision e = dover_step(d, mark);
    return e.kind == kind && e.tick == tick && e.job == job && e.other == 0;
}

/* Each cause for which a job isn't taken as done, and the completion of one that is. */
static void early(void) {
    const uint64_t big = UINT64_C(1) << 63;
    dover_init(&a, 2, 1, 3, 10);
    dover_init(&b, 2, 1, 2, 10);
    unsigned long before = taken;
    ROW(settle(&b, 0) == DOVER_NONE && admit(&b, 0, 4, 9, 4) == DOVER_ADMITTED && settle(&b, 2) == DOVER_NONE);
    ROW(dover_done(&b, 2, 0) == DOVER_NOT_EARLY && dover_done(&b, 9, 9) == DOVER_NOT_EARLY);
    ROW(dover_done(&a, 0, 0) == DOVER_UNSETTLED); /* no step was taken */
    ROW(settle(&a, 0) == DOVER_NONE && dover_done(&a, 0, 0) == DOVER_NOT_RUNNING);
    ROW(admit(&a, 0, 4, 9, 4) == DOVER_ADMITTED && dover_done(&a, 0, 0) == DOVER_UNSETTLED);
    ROW(settle(&a, 0) == DOVER_NONE && dover_done(&a, 0, 0) == DOVER_BEHIND); /* it had no tick */
    ROW(admit(&a, 0, 9, 20, 9) == DOVER_ADMITTED && settle(&a, 2) == DOVER_NONE);
    ROW(dover_done(&a, 1, 0) == DOVER_UNSETTLED && dover_done(&a, 3, 0) == DOVER_UNSETTLED &&
        dover_done(&a, big, 0) == DOVER_UNSETTLED);
    ROW(dover_done(&a, 2, 1) == DOVER_NOT_RUNNING && dover_done(&a, 2, 2) == DOVER_NOT_RUNNING &&
        dover_done(&a, 2, big) == DOVER_NOT_RUNNING); /* it waits; there is none */
    ROW(is_due(&a, 4) && dover_spare(&a) == 8 && dover_value(&a) == 0); /* all as before */
    ROW(dover_done(&a, 2, 0) == DOVER_DONE && dover_done(&a, 2, 0) == DOVER_UNSETTLED && is_due(&a, 2));
    ROW(admit(&a, 2, 1, 9, 1) == DOVER_UNSETTLED && dover_value(&a) == 4 && dover_spare(&a) == 9);
    ROW(is_next(&a, 2, DOVER_COMPLETE, 2, 0) && is_next(&a, 2, DOVER_RUN, 2, 1) && settle(&a, 2) == DOVER_NONE);
    ROW(dover_done(&a, 2, 1) == DOVER_BEHIND && dover_done(&a, 2, 0) == DOVER_NOT_RUNNING); /* it is over */
    ROW(settle(&a, 3) == DOVER_NONE && admit(&a, 3, 1, 19, 1) == DOVER_ADMITTED && settle(&a, 3) == DOVER_NONE);
    ROW(dover_done(&a, 3, 1) == DOVER_NOT_RUNNING && dover_done(&a, 3, 2) == DOVER_BEHIND); /* it is held; it came */
    ROW(settle(&a, 4) == DOVER_NONE && dover_done(&a, 4, 2) == DOVER_NOT_RUNNING); /* its work is out */
    ROW(dover_done(&a, 4, 1) == DOVER_BEHIND && settle(&a, 5) == DOVER_NONE && dover_done(&a, 5, 1) == DOVER_DONE);
    dover_decision e = dover_finish(&a); /* the completion comes first, also to the end */
    ROW(e.kind == DOVER_COMPLETE && e.tick == 5 && e.job == 1 && dover_done(&a, 5, 1) == DOVER_UNSETTLED);
    ROW((e = dover_finish(&a)).kind == DOVER_END && e.tick == 14 && taken == before);
    dover_drop(&a);
    dover_drop(&b);
    dover_init(&a, 2, 1, 3, 3);
    for (uint64_t i = 0; i < 5; i++) { /* each at rest before the next: the number is that over the whole life */
        settle(&a, 10 * i);
        ROW(dover_admit(&a, 10 * i, 5, 10 * i + 9, i + 1).number == i && settle(&a, 10 * i + 2) == DOVER_NONE);
        ROW(dover_done(&a, 10 * i + 2, i) == DOVER_DONE && is_next(&a, 10 * i + 2, DOVER_COMPLETE, 10 * i + 2, i));
        ROW(settle(&a, 10 * i + 2) == DOVER_NONE && dover_spare(&a) == 3 &&
            dover_done(&a, 10 * i + 2, i) == DOVER_NOT_RUNNING);
    }
    ROW(dover_value(&a) == 15);
    dover_drop(&a);
    ROW(dover_done(&a, 0, 0) == DOVER_NOT_MADE && dover_done(&never, big, big) == DOVER_NOT_MADE);
}

/* The job that would be next, as it is where the other is done; and by a factor a take that there isn't by the root. */
static void choosing(void) {
    dover_decision e;
    dover_init(&a, 10, 1, 3, 10);
    unsigned long before = taken;
    ROW(is_named(&a, DOVER_NOBODY, 0) && settle(&a, 0) == DOVER_NONE && admit(&a, 0, 10, 40, 10) == DOVER_ADMITTED);
    ROW(settle(&a, 1) == DOVER_NONE && is_named(&a, DOVER_NOBODY, 0)); /* no other job is open */
    ROW(admit(&a, 1, 5, 20, 5) == DOVER_ADMITTED && settle(&a, 2) == DOVER_NONE);
    ROW(is_named(&a, DOVER_NAMED, 0)); /* it is held */
    ROW(admit(&a, 2, 1, 21, 1) == DOVER_ADMITTED && settle(&a, 3) == DOVER_NONE);
    ROW(is_named(&a, DOVER_NAMED, 2)); /* it waits, and is due before the held one */
    ROW(dover_done(&a, 3, 1) == DOVER_DONE && is_next(&a, 3, DOVER_COMPLETE, 3, 1) && is_next(&a, 3, DOVER_RUN, 3, 2));
    ROW(settle(&a, 3) == DOVER_NONE && is_named(&a, DOVER_NAMED, 0) && settle(&a, 4) == DOVER_NONE);
    ROW(is_named(&a, DOVER_NOBODY, 0) && settle(&a, 20) == DOVER_NONE && is_named(&a, DOVER_NOBODY, 0)); /* at rest */
    ROW(admit(&a, 20, 9, 90, 9) == DOVER_ADMITTED && settle(&a, 20) == DOVER_NONE &&
        admit(&a, 20, 9, 91, 9) == DOVER_ADMITTED && settle(&a, 21) == DOVER_NONE && is_named(&a, DOVER_NAMED, 4));
    ROW(taken == before && dover_value_high(&a) == 0);
    dover_drop(&a);
    for (int i = 0; i < 2; i++) { /* worth 300 against 100: heavy by the factor 2, not by 1 + the root of 1,000,000 */
        if (i == 0) dover_init(&a, 1000000, 1, 1, 10);
        else dover_init_factor(&a, 1000000, 1, 1, 10, 2, 1);
        ROW(settle(&a, 0) == DOVER_NONE && admit(&a, 0, 100, 100, 100) == DOVER_ADMITTED);
        ROW(settle(&a, 10) == DOVER_NONE && admit(&a, 10, 1, 11, 300) == DOVER_ADMITTED);
        ROW((e = dover_step(&a, 11)).kind == DOVER_RELEASE);
        ROW((e = dover_step(&a, 11)).kind == (i == 0 ? DOVER_ABANDON : DOVER_TAKE) && e.tick == 10 && e.job == 1);
        dover_drop(&a);
    }
}

/* The job that breaks the ratio is named by its number over the whole life, also where others were forgotten. A refused
   job has moved the clock. */
static void renumbered(void) {
    dover_init(&a, 2, 1, 1, 3);
    for (uint64_t i = 0; i < 5; i++) {
        settle(&a, 10 * i);
        ROW(dover_admit(&a, 10 * i, 1, 10 * i + 1, i + 1).number == i); /* each at rest before the next */
    }
    ROW(settle(&a, 50) == DOVER_NONE && dover_admit(&a, 50, 2, 60, 4).number == 5);
    ROW(settle(&a, 50) == DOVER_NONE && dover_admit(&a, 50, 2, 60, 8).number == 6);
    ROW(settle(&a, 51) == DOVER_NONE);
    dover_admitted dense = dover_admit(&a, 51, 1, 60, 5), light = dover_admit(&a, 51, 1, 60, 1);
    ROW(dense.status == DOVER_DENSITY && dense.number == 5);
    ROW(light.status == DOVER_DENSITY && light.number == 6);
    ROW(admit(&a, 50, 1, 60, 2) == DOVER_UNSETTLED && dover_step(&a, 50).kind == DOVER_FALLS);
    dover_drop(&a);
}

static int is_restart(dover *d, uint32_t status, uint64_t tick) {
    dover_restarted x = dover_restart(d);
    return x.status == status && x.tick == tick;
}

/* Each cause for which nothing begins anew, and that all does where it may: clock, numbers, value and limits. */
static void restarting(void) {
    const uint64_t last = UINT64_C(10000000000000000);
    dover_decision e;
    dover_init_factor(&a, 2, 1, 3, 3, 3, 2);
    unsigned long before = taken, back = given_back;
    ROW(is_restart(&a, DOVER_UNSETTLED, 0)); /* no step was taken */
    ROW(settle(&a, 0) == DOVER_NONE && is_restart(&a, DOVER_RESTARTED, 0) && is_restart(&a, DOVER_UNSETTLED, 0));
    ROW(settle(&a, 7) == DOVER_NONE && is_restart(&a, DOVER_RESTARTED, 7)); /* no job came */
    ROW(settle(&a, 3) == DOVER_NONE && admit(&a, 3, 4, 9, 4) == DOVER_ADMITTED && is_restart(&a, DOVER_UNSETTLED, 0));
    ROW(settle(&a, 3) == DOVER_NONE && is_restart(&a, DOVER_OPEN, 0) && dover_spare(&a) == 2 && is_due(&a, 7));
    ROW(settle(&a, 5) == DOVER_NONE && is_restart(&a, DOVER_OPEN, 0) && dover_done(&a, 5, 0) == DOVER_DONE);
    ROW(is_restart(&a, DOVER_UNSETTLED, 0)); /* its completion is to be given */
    ROW(is_next(&a, 5, DOVER_COMPLETE, 5, 0) && is_restart(&a, DOVER_UNSETTLED, 0)); /* not yet all of the tick */
    ROW(settle(&a, last) == DOVER_NONE && dover_step(&a, last + 1).kind == DOVER_LATE && dover_value(&a) == 4);
    ROW(is_restart(&a, DOVER_RESTARTED, last) && dover_value(&a) == 0 && dover_spare(&a) == 3);
    ROW(admit(&a, 0, 2, 9, 1000) == DOVER_UNSETTLED && is_idle(&a, DOVER_IDLE) && is_named(&a, DOVER_NOBODY, 0));
    ROW(settle(&a, 0) == DOVER_NONE && dover_admit(&a, 0, 2, 9, 1000).number == 0); /* of any density */
    ROW(is_next(&a, 2, DOVER_RELEASE, 0, 0) && is_next(&a, 2, DOVER_RUN, 0, 0) && is_next(&a, 2, DOVER_COMPLETE, 2, 0));
    ROW(settle(&a, 2) == DOVER_NONE && admit(&a, 2, 2, 4, 1000) == DOVER_ADMITTED); /* the ratio is the same */
    ROW(settle(&a, 2) == DOVER_NONE && dover_admit(&a, 2, 1, 4, 1001).number == 1 && dover_spare(&a) == 2);
    ROW(admit(&a, 2, 2, 4, 1501) == DOVER_ADMITTED && is_next(&a, 3, DOVER_RELEASE, 2, 2)); /* and so is the factor */
    e = dover_step(&a, 3);
    ROW(e.kind == DOVER_TAKE && e.tick == 2 && e.job == 2 && e.other == 1 && is_restart(&a, DOVER_UNSETTLED, 0));
    ROW(settle(&a, 9) == DOVER_NONE && dover_value(&a) == 2501 && dover_finish(&a).kind == DOVER_END);
    ROW(is_restart(&a, DOVER_FINISHED, 0) && dover_finish(&a).kind == DOVER_NONE && dover_value(&a) == 2501);
    ROW(taken == before && given_back == back);
    dover_drop(&a);
    ROW(is_restart(&a, DOVER_NOT_MADE, 0) && is_restart(&never, DOVER_NOT_MADE, 0));
}

/* An engine for four open jobs serves 400,000, beside one whose jobs stay open. */
static void for_long(void) {
    dover_init(&a, 1000, 1, 2, 4);
    dover_init(&b, 1000, 1, 2, 4);
    unsigned long before = taken;
    uint64_t t = 0, wrong = 0, number = 0;
    for (int i = 0; i < 100000; i++) {
        if (settle(&a, t) != DOVER_NONE || dover_spare(&a) != 4) wrong++;
        for (uint64_t j = 0; j < 4; j++) {
            dover_admitted x = dover_admit(&a, t, 2, t + 4 + j, 5 + j);
            if (x.status != DOVER_ADMITTED || x.number != number++) wrong++;
            if (settle(&a, t) != DOVER_NONE) wrong++;
        }
        t += 8;
    }
    ROW(wrong == 0 && number == 400000);
    for (uint64_t j = 0; j < 5; j++) {
        settle(&b, j);
        ROW(admit(&b, j, 20, 100 + j, 50) == (j < 4 ? DOVER_ADMITTED : DOVER_FULL));
    }
    ROW(taken == before);
    dover_drop(&a);
    dover_drop(&b);
}

static void limits(void) {
    const uint64_t most = UINT64_C(1000000000);
    dover_init(&a, 1, 1, 1, 20000);
    ROW(settle(&a, 0) == DOVER_NONE);
    for (uint64_t i = 0; i < 10000; i++) {
        if (admit(&a, i, most, i + 2 * most, most) != DOVER_ADMITTED) ROW(0);
        settle(&a, i);
        settle(&a, i + 1);
    }
    ROW(admit(&a, 10000, most, 10000 + 2 * most, most) == DOVER_TOTAL);
    ROW(admit(&a, 10000, 1, 10002, 1) == DOVER_TOTAL);
    dover_drop(&a);
    dover_init(&a, 1, 1, 1, 3);
    unsigned long before = taken;
    uint64_t t = 0;
    ROW(settle(&a, 0) == DOVER_NONE && admit(&a, 0, 900000, 2000000, 900000) == DOVER_ADMITTED); /* open for long */
    for (int i = 1; i < 1000000; i++, t++) {
        settle(&a, t);
        if (admit(&a, t, 1, t + 1, 1) != DOVER_ADMITTED) ROW(0);
    }
    settle(&a, t);
    ROW(dover_spare(&a) == 2 && admit(&a, t, 1, t + 1, 1) == DOVER_COUNT);
    settle(&a, t = 2000000);
    ROW(dover_spare(&a) == 3 && dover_admit(&a, t, 1, t + 1, 1).number == 1000000);
    ROW(taken == before);
    dover_drop(&a);
}

int main(void) {
    ROW(dover_size() <= sizeof a);
    making();
    without_one();
    one_by_one();
    sleeping();
    early();
    choosing();
    renumbered();
    restarting();
    for_long();
    limits();
    printf("%d rows, %d failed, %zu bytes a place\n", rows, failed, dover_size());
    return failed != 0;
}

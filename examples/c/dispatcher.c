/* A dispatcher: reads a feed and prints its decisions as `serve` does. Refused lines go to standard error. */
#include <inttypes.h>
#include <stdio.h>
#include "dover.h"

_Static_assert(sizeof(dover) == 720, "a place is 90 words");
_Static_assert(sizeof(dover_admitted) == 16 && offsetof(dover_admitted, status) == 8, "as the library lays it out");
_Static_assert(sizeof(dover_decision) == 32 && offsetof(dover_decision, kind) == 24, "as the library lays it out");

static dover engine;
static uint64_t jobs[1000000][4];
static const char *const words[] = {"", "job", "run", "preempt", "take", "complete", "abandon", "end"};

static void dispatch(dover_decision d) {
    const uint64_t *j = jobs[d.job % 1000000];
    printf("%s", words[d.kind]);
    if (d.kind == DOVER_RELEASE)
        printf(" %" PRIu64 " %" PRIu64 " %" PRIu64 " %" PRIu64 " %" PRIu64 "\n", d.job, j[0], j[1], j[2], j[3]);
    else if (d.kind == DOVER_PREEMPT || d.kind == DOVER_TAKE)
        printf(" %" PRIu64 " %" PRIu64 " %" PRIu64 "\n", d.tick, d.other, d.job);
    else if (d.kind == DOVER_END)
        printf(" %" PRIu64 "\n", d.tick);
    else
        printf(" %" PRIu64 " %" PRIu64 "\n", d.tick, d.job);
}

static void settle(uint64_t mark) {
    dover_decision d;
    while ((d = dover_step(&engine, mark)).kind != DOVER_NONE && d.kind <= DOVER_END)
        dispatch(d);
}

int main(void) {
    uint32_t p, q, version = 1, b = 0, c = 0;
    uint64_t j[4];
    dover_decision d;
    if (dover_size() > sizeof engine || scanf("k %" SCNu32 " %" SCNu32, &p, &q) != 2) return 1;
    if (getchar() == ' ') {
        if (scanf("%" SCNu32, &version) != 1) return 1;
        if (getchar() == ' ' && scanf("%" SCNu32 " %" SCNu32, &b, &c) != 2) return 1;
    }
    if (c) dover_init_factor(&engine, p, q, version, 1000000, b, c);
    else dover_init(&engine, p, q, version, 1000000);
    if (dover_status(&engine) != DOVER_MADE) return 2;
    printf("dover %" PRIu32 " %" PRIu32 " %" PRIu32, version, p, q);
    if (c) printf(" %" PRIu32 " %" PRIu32, b, c);
    printf("\n");
    for (char word[8]; scanf("%7s", word) == 1 && word[0] != 'e';) {
        int fields = word[0] == 't' ? 1 : word[0] == 'd' ? 2 : 4;
        for (int i = 0; i < fields; i++)
            if (scanf("%" SCNu64, &j[i]) != 1) return 1;
        settle(j[0]);
        if (fields == 1) continue;
        if (fields == 2) {
            uint32_t status = dover_done(&engine, j[0], j[1]);
            if (status != DOVER_DONE) fprintf(stderr, "not done: %" PRIu32 "\n", status);
            settle(j[0]);
            continue;
        }
        dover_admitted a = dover_admit(&engine, j[0], j[1], j[2], j[3]);
        if (a.status != DOVER_ADMITTED) fprintf(stderr, "refused: %" PRIu32 "\n", a.status);
        for (int i = 0; i < 4 && a.status == DOVER_ADMITTED; i++) jobs[a.number % 1000000][i] = j[i];
        settle(j[0]);
    }
    while ((d = dover_finish(&engine)).kind != DOVER_NONE) dispatch(d);
    dover_drop(&engine);
    return 0;
}

/* An engine that never comes to the end of its clock: 3,170 years of microseconds, at rest once a day, where it is
   restarted. Each day has three jobs, and the program keeps the time that it has taken off the engine's clock. Prints
   what became of all, and ends with 0 where that is what was to come.
   usage: years [DAYS], which are 1,157,408 */
#include <inttypes.h>
#include <stdio.h>
#include <stdlib.h>
#include "dover.h"

#define DAY UINT64_C(86400000000)

static dover engine;
static uint64_t off;  /* what was taken off the clock so far */
static uint64_t completed, lost, value;
static uint64_t last; /* the tick of the last decision, in the time of the first engine */

/* Acts on all that is decided before the tick; 0 where a decision is of a day that is over. */
static int settle(uint64_t tick) {
    for (;;) {
        dover_decision d = dover_step(&engine, tick);
        if (d.kind == DOVER_NONE) return 1;
        if (d.kind > DOVER_END || off + d.tick < last) return 0;
        last = off + d.tick;
        completed += d.kind == DOVER_COMPLETE;
        lost += d.kind == DOVER_ABANDON;
    }
}

/* The release, work, deadline and value of each job of a day. The second one takes the processor from the first. */
static const uint64_t jobs[3][4] = {{0, 4, 6, 8}, {1, 80, 82, 80}, {DAY / 2, 1000, DAY / 2 + 2000, 1500}};

static int day(void) {
    for (int i = 0; i < 3; i++) {
        const uint64_t *j = jobs[i];
        if (!settle(j[0]) || dover_admit(&engine, j[0], j[1], j[2], j[3]).status != DOVER_ADMITTED) return 0;
    }
    if (!settle(DAY)) return 0;
    value += dover_value(&engine);
    dover_restarted r = dover_restart(&engine);
    off += r.tick;
    return r.status == DOVER_RESTARTED && r.tick == DAY;
}

int main(int count, char **words) {
    const uint64_t days = count > 1 ? strtoull(words[1], NULL, 10) : UINT64_C(1157408);
    dover_init(&engine, 2, 1, 4, 3);
    if (dover_status(&engine) != DOVER_MADE) return 1;
    for (uint64_t i = 0; i < days; i++) {
        if (!day()) {
            printf("wrong in day %" PRIu64 "\n", i);
            return 1;
        }
    }
    dover_drop(&engine);
    printf("%" PRIu64 " ticks: %" PRIu64 " jobs completed, worth %" PRIu64 ", and %" PRIu64 " lost\n", off, completed,
           value, lost);
    return !(off == days * DAY && completed == 2 * days && lost == days && value == 1580 * days);
}

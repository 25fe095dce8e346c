/* An on-line scheduler for one processor under overload (D-over), as a library. What each call answers is proved;
   docs/EMBEDDING.md says what that is worth and what is trusted.

   Units   A tick is whatever the caller counts: a microsecond, a millisecond, a frame. Releases, deadlines and marks
           are ticks from 0 to 10,000,000,000,000,000, in versions 1 and 2 to 1,000,000,000,000; work is in ticks; value
           is in any unit. The clock is the caller's: the engine goes where a mark sends it.
   Jobs    1 <= work <= 1,000,000,000,000, release + work <= deadline, 1 <= value <= 1,000,000,000. The ratio p/q is an
           upper bound of how often the densest job (value for each tick of work) is worth the least dense one:
           1 <= q <= 1,000, q <= p <= 1,000,000.
   Limits  At once: `capacity` open jobs, which are admitted and not over; at most 1,000,000. A job is over at its
           deadline at the latest, so as many are enough as can come within the longest time from a release to its
           deadline. Since the last moment of rest: 1,000,000 jobs, and 10,000,000,000,000 in value; from version 3
           on 4,000,000,000 jobs, and 999,999,999,999,999,999 in value. Rest is where dover_step answers DOVER_NONE
           and no job is open: dover_spare is then the room that there was at first. From there on these two limits
           and that of densities start anew, each time; the clock and the numbers go on. An engine that never rests
           answers DOVER_COUNT or DOVER_TOTAL from such a limit on till the open jobs are over. No rest lifts two: the
           last tick, and 10,000,000,000,000,000,000 jobs in all, which are at least 1,000 for each tick that there is.
           dover_restart lifts both: at rest it begins the clock and the numbers anew.
   Memory  dover_init takes all of it: as measured 148 bytes for each job of the capacity, 200 in version 4, and a
           little more. No later call takes or gives back any, but dover_drop, which gives all back.
   Errors  Every call answers whatever it is asked, in any order, of a place that dover_init was called for, and of one
           of zeros: behind dover_drop, and where none was made, it says that there is no engine. A refused call leaves
           the engine as it was.
   Threads One engine is used by one call at a time. Two engines are independent. No call is made from a signal
           handler, or from the forked child of a process with threads. No call blocks, waits, locks or reads a clock.
   Time    With d the binary digits of one more than the open jobs, a step costs at most 12 * d comparisons, and a take
           2 * d more for each job that is held: it moves all of them at once, and the capacity bounds them. In version
           4 that is 18 * d and 3 * d. All steps together cost at most 1,600 for each job, and from version 3 on at
           most 2,560: 20 for each binary digit of their count since the last moment of rest, 20 digits at most and
           from version 3 on at most 32, and each of the four times at most that a job begins or ceases to wait. */
#ifndef DOVER_H
#define DOVER_H
#include <stddef.h>
#include <stdint.h>
#ifdef __cplusplus
extern "C" {
#endif

/* The version of the library that this header is of: the year, the month in two digits, and then two digits that tell
   versions of one month apart. It has nothing to do with the versions of the rules, which are 1, 2, 3 and 4. */
#define DOVER_VERSION 20261100

/* A place for an engine: static, on a stack or in an arena, at a multiple of 8 bytes. From dover_init on nobody but
   these calls reads or writes it. It isn't moved or copied. */
#define DOVER_WORDS 90
typedef struct { uint64_t opaque[DOVER_WORDS]; } dover;

/* How many bytes an engine takes: at most sizeof(dover), as the prover holds of the library of this header. Test it
   once, at the start: it tells a library of another version. */
size_t dover_size(void);

/* Makes an engine in the place, whatever its bytes are. dover_status says whether there is one. Called again without a
   dover_drop it leaks the first one's memory. */
void dover_init(dover *, uint32_t p, uint32_t q, uint32_t version, uint32_t capacity);

/* The same with a factor b/c of one's own, in any version: a waiting job at its latest start takes the processor where
   it is worth more than b/c times what runs and is held together. 1 <= c <= 1,000, c < b <= 1,000,000. With dover_init
   it has to be worth more than 1 + the root of p/q times as much. */
void dover_init_factor(dover *, uint32_t p, uint32_t q, uint32_t version, uint32_t capacity, uint32_t b, uint32_t c);

/* Whether there is an engine, and else why not: of the causes for which none was made the first that held. */
enum {
    DOVER_MADE = 5,
    DOVER_EMPTY = 0,        /* dover_drop was called, or never dover_init, for a place of zeros */
    DOVER_BAD_VERSION = 4,  /* the version is none of 1 to 4: from 2 on value breaks ties of deadlines, from 3 on a job
                               may be done before its work is out, and in 4 waiting jobs are chosen by density once
                               one was abandoned, until no job is open */
    DOVER_BAD_RATIO = 1,    /* p/q is out of its limits */
    DOVER_BAD_FACTOR = 6,   /* b/c is out of its limits; dover_init never says so */
    DOVER_BAD_CAPACITY = 2, /* above 1,000,000 */
    DOVER_NO_MEMORY = 3
};
uint32_t dover_status(dover *);

/* Hands in a job. The status is the first of these causes that holds, in this order, and 0 where none does: then the
   job has the next number, 0 at first. No number is used twice, but behind dover_restart. Since dover_step goes to the
   release before, the clock has gone there also where the job is refused then. */
typedef struct { uint64_t number; uint32_t status; } dover_admitted;
enum {
    DOVER_ADMITTED = 0,
    DOVER_NOT_MADE = 7,  /* there is no engine */
    DOVER_UNSETTLED = 1, /* dover_step to the release has to answer DOVER_NONE first, also between two jobs of one
                            release; so it is too for a release below the clock, and behind dover_finish */
    DOVER_BAD_JOB = 2,   /* a limit of a job */
    DOVER_COUNT = 3,     /* the most jobs since the last moment of rest */
    DOVER_TOTAL = 4,     /* too much value since then */
    DOVER_DENSITY = 5,   /* its density and that of a job since then, which `number` names, break the ratio */
    DOVER_FULL = 6,      /* as many jobs are open as the capacity allows: wait till one is over, or drop the job */
    DOVER_NUMBERS = 8    /* the most jobs in all since the last dover_restart */
};
dover_admitted dover_admit(dover *, uint64_t release, uint64_t work, uint64_t deadline, uint64_t value);

/* Says that a job is done though it has work left: it had the processor in the tick that ends at this one, and needs no
   more. DOVER_DONE: the next decision is its completion at this tick, and it is worth all its value. Otherwise the
   status is the first of these causes that holds, in this order.
   At the edge where a tick begins, a program acts on what dover_step to that tick gives, up to DOVER_NONE. Then it
   makes this call if the job that had the processor has ended, and steps to the tick again. Only then it hands in the
   jobs of that release, since one of them may stop the job. A job whose work is out by then is completed by dover_step.
   Where the answer is DOVER_NOT_RUNNING or DOVER_BEHIND and the job is open, as one that is held is, the call is made
   again at the edge behind the next tick that it has had. */
enum {
    DOVER_DONE = 0,
    /* DOVER_NOT_MADE = 7, there is no engine */
    DOVER_NOT_EARLY = 4,   /* the version is 1 or 2 */
    /* DOVER_UNSETTLED = 1, dover_step to the tick has to answer DOVER_NONE first, and no job to be admitted then */
    DOVER_NOT_RUNNING = 3, /* the job hasn't the processor */
    DOVER_BEHIND = 2       /* a decision of this tick was given: the job got the processor at it, or a job came first */
};
uint32_t dover_done(dover *, uint64_t tick, uint64_t job);

/* The next decision that no job can change that is released at the mark or later, or DOVER_NONE where all of these were
   given. Marks don't fall. What the fields say goes by the kind; all others are 0, and so is `other` at DOVER_END where
   the value is below 2^64. */
typedef struct { uint64_t tick, job, other; uint32_t kind; } dover_decision;
enum {                  /* fields */
    DOVER_NONE = 0,
    DOVER_RELEASE = 1,  /* tick, job: it came */
    DOVER_RUN = 2,      /* tick, job: there the processor begins or goes on with it */
    DOVER_PREEMPT = 3,  /* tick, job, other: it runs, and `other` stops, to go on later */
    DOVER_TAKE = 4,     /* tick, job, other: it runs, at its latest start, and `other` stops, which may be lost with all
                           that are held */
    DOVER_COMPLETE = 5, /* tick, job: it is done */
    DOVER_ABANDON = 6,  /* tick, job: it is given up */
    DOVER_END = 7,      /* tick, other: the value of all jobs that completed is other * 2^64 + tick. All are over */
    DOVER_FALLS = 8,    /* the mark is below the last one */
    DOVER_LATE = 9,     /* the mark is above the last tick of the version */
    DOVER_FINISHED = 10, /* dover_finish was called */
    DOVER_NO_ENGINE = 11
};
dover_decision dover_step(dover *, uint64_t mark);

/* The next decision where no job can come any more: DOVER_END is the last, then there is DOVER_NONE. No job is
   admitted from then on. */
dover_decision dover_finish(dover *);

/* Begins anew at a moment of rest: the last dover_step answered DOVER_NONE, and no job is open. DOVER_RESTARTED: the
   place is as dover_init left it, of the same ratio, factor, version and capacity. The clock is at 0, and the numbers
   of jobs and the value begin at 0. `tick` is what was taken off the clock: the mark of that dover_step. A program that
   adds up what was taken off, and reads dover_value before, goes on for ever: its ticks are so much later in the time
   of before. All jobs before and behind are one run, and the guarantee holds for all of them. No memory is taken or
   given back. Otherwise the tick is 0, and the status is the first of these causes that holds, in this order. */
typedef struct { uint64_t tick; uint32_t status; } dover_restarted;
enum {
    DOVER_RESTARTED = 0,
    /* DOVER_NOT_MADE = 7, there is no engine */
    /* DOVER_FINISHED = 10, dover_finish was called */
    /* DOVER_UNSETTLED = 1, dover_step has to answer DOVER_NONE first, and no job to be admitted or done then */
    DOVER_OPEN = 2 /* a job is open */
};
dover_restarted dover_restart(dover *);

/* The tick for which to call next. Where the last dover_step answered DOVER_NONE and no job was admitted or done since,
   it is that of the next decision if no job comes before: dover_step to any tick before it answers DOVER_NONE, so a
   program sleeps till then, or till a job comes. DOVER_COMPLETE is given by dover_step to the tick, DOVER_TAKE and
   DOVER_ABANDON by one to the tick behind it. Otherwise the tick is the clock: dover_step comes first. */
typedef struct { uint64_t tick; uint32_t status; } dover_due;
enum {
    DOVER_DUE = 0,
    DOVER_IDLE = 1 /* no job is open; or DOVER_NOT_MADE. The tick is 0 */
};
dover_due dover_next(dover *);

/* Who would get the processor next if the job that has it were done. Where the last dover_step answered DOVER_NONE and
   no job was admitted or done since, and dover_done says of this mark that the job is done, then behind its
   DOVER_COMPLETE the next step to the mark gives the DOVER_RUN of the job that was named here, and DOVER_NONE where
   none was. So a program that asks behind dover_step to T+1, while tick T passes, can make that job ready before it
   says at edge T+1 that the other one is done. */
typedef struct { uint64_t job; uint32_t status; } dover_named;
enum {
    DOVER_NAMED = 0,
    DOVER_NOBODY = 1 /* no other job is open; or DOVER_NOT_MADE. The job is 0 */
};
dover_named dover_successor(dover *);

/* The value of all jobs that completed is dover_value_high * 2^64 + dover_value. 0 where there is no engine. */
uint64_t dover_value(dover *);
uint64_t dover_value_high(dover *);

/* For how many open jobs more there is room. 0 where there is no engine. */
uint32_t dover_spare(dover *);

/* Gives back the memory. There is no engine then: each call says so, another dover_drop does nothing, and dover_init
   may make one anew. */
void dover_drop(dover *);

#ifdef __cplusplus
}
#endif
#endif

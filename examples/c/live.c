/* A dispatcher of real processes: the engine gives one processor to one of them at a time. A job is a process that uses
   processor time; put a call of your own, or of exec, in the place of `work`. For Linux.
   usage: live [SECONDS], from 1 to 60: for how long jobs are released (2)

   It sleeps until the edge of a tick at which the engine has something to decide, a job is released, or the end of a
   process can be told. Standard error says where it gets no real-time priority, and the last line how late it was. */
#define _GNU_SOURCE
#include <inttypes.h>
#include <sched.h>
#include <signal.h>
#include <stdio.h>
#include <stdlib.h>
#include <sys/mman.h>
#include <sys/prctl.h>
#include <sys/wait.h>
#include <time.h>
#include <unistd.h>
#include "dover.h"

#define TICK INT64_C(5000000) /* nanoseconds */
enum { MOST = 1000 };         /* jobs; those of 60 seconds are fewer */

/* In ticks. A budget is the most that the work may need, room for what delays it, and a tick more for its signals.
   The frames are too much work for the processor; the alarms and the upload are worth more. */
typedef struct { uint64_t offset, period, budget, due, value; long work_ms; const char *name; } task;
static const task tasks[] = {{0, 50, 99, 102, 490, 275, "frame"},
                             {98, 500, 53, 105, 2600, 100, "alarm"},
                             {120, 100000, 241, 520, 2400, 700, "upload"}};
enum { TASKS = sizeof tasks / sizeof *tasks };

/* `ended` is 0 as long as its process hasn't ended. */
typedef struct { const task *of; uint64_t number, deadline; pid_t process; int64_t ended; } job;

static dover engine;
static job jobs[MOST];       /* by their numbers */
static job *running;         /* it has the processor, since the tick `since` */
static uint64_t since, count, value, coming[TASKS], until;
static dover_decision early; /* a decision for the next tick, which came with those of this one */
static int64_t start, latest;
static cpu_set_t commands, others;
static sigset_t child_ended;

static int64_t now(void) {
    struct timespec at;
    clock_gettime(CLOCK_MONOTONIC, &at);
    return (int64_t)at.tv_sec * 1000000000 + at.tv_nsec - start;
}

static void work(const task *of) { while (clock() < of->work_ms * (CLOCKS_PER_SEC / 1000)) {} }

/* The child leaves what its parent has: other processors, a greater priority, and a blocked signal. */
static void begin(job *j) {
    fflush(stdout);
    j->process = fork();
    if (j->process == 0) {
        const struct sched_param priority = {.sched_priority = 1};
        setpgid(0, 0);
        prctl(PR_SET_PDEATHSIG, SIGKILL);
        sched_setaffinity(0, sizeof commands, &commands);
        sched_setscheduler(0, SCHED_FIFO, &priority); /* where it isn't allowed, the parent has said so */
        sigprocmask(SIG_UNBLOCK, &child_ended, NULL);
        work(j->of);
        _exit(0);
    }
    if (j->process < 0) perror("live: a job can't begin");
    else setpgid(j->process, j->process); /* here too, since either of the two may come first */
}

static void send_signal(const job *j, int which) {
    if (j->process > 0 && j->ended == 0) kill(-j->process, which);
}

/* Takes in which processes have ended. The time is that at which it was seen, and so never too early. */
static void look(void) {
    int status;
    for (pid_t process; (process = waitpid(-1, &status, WNOHANG)) > 0;)
        for (job *j = jobs; j < jobs + count; j++)
            if (j->process == process) j->ended = status == 0 ? now() : INT64_MAX;
}

static int is_in_time(const job *j) { return j->ended != 0 && j->ended <= (int64_t)j->deadline * TICK; }

/* It is over. Where it hasn't ended by itself it is killed, and lost. */
static void end(job *j) {
    look();
    send_signal(j, SIGKILL);
    if (running == j) running = NULL;
    if (is_in_time(j)) value += j->of->value;
}

static void give_processor(job *j, uint64_t tick) {
    if (running) send_signal(running, SIGSTOP);
    running = j;
    since = tick;
    if (j->process == 0) begin(j);
    else send_signal(j, SIGCONT);
}

static void carry_out(dover_decision d) {
    static const char *const words[] = {"", "release", "run", "preempt", "take", "complete", "abandon"};
    job *j = &jobs[d.job];
    int is_over = d.kind == DOVER_COMPLETE || d.kind == DOVER_ABANDON;
    if (is_over) end(j);
    else if (d.kind != DOVER_RELEASE) give_processor(j, d.tick);
    printf("%6" PRId64 " ms  %-8s %3" PRIu64 " %s%s\n", now() / 1000000, words[d.kind], d.job, j->of->name,
           !is_over ? "" : is_in_time(j) ? ", in time" : ", lost");
}

/* Carries out what is decided up to tick t and by the mark. A decision of a later tick waits for it. */
static void settle(uint64_t t, uint64_t mark) {
    for (;;) {
        if (early.kind == DOVER_NONE) early = dover_step(&engine, mark);
        if (early.kind == DOVER_NONE || early.tick > t) return;
        carry_out(early);
        early.kind = DOVER_NONE;
    }
}

/* Hands in a job at tick t, which may be a little behind its release. */
static void hand_in(const task *of, uint64_t release, uint64_t t) {
    const uint64_t deadline = release + of->due;
    const dover_admitted a = dover_admit(&engine, t, of->budget, deadline, of->value);
    if (a.status != DOVER_ADMITTED) {
        fprintf(stderr, "live: a job is refused (%s), with status %" PRIu32 "\n", of->name, a.status);
        return;
    }
    jobs[a.number] = (job){.of = of, .number = a.number, .deadline = deadline};
    count = a.number + 1;
    settle(t, t);
}

/* What is settled comes first, then the end of the process that had the processor, and then the jobs of the tick. An
   end that the engine doesn't take at this edge is told at the next one. */
static void edge(uint64_t t) {
    settle(t, t);
    look();
    if (running && running->ended && since < t && dover_done(&engine, t, running->number) == DOVER_DONE) settle(t, t);
    for (int i = 0; i < TASKS; i++)
        for (; coming[i] <= t && coming[i] < until; coming[i] += tasks[i].period) hand_in(&tasks[i], coming[i], t);
    settle(t, t + 1); /* all jobs of the tick are in */
}

/* The next edge at which there is something to do. Where nothing is left it is 0. */
static uint64_t next_edge(uint64_t t) {
    uint64_t next = UINT64_MAX;
    const dover_due due = dover_next(&engine);
    if (early.kind != DOVER_NONE) next = early.tick;
    else if (due.status == DOVER_DUE) next = due.tick;
    for (int i = 0; i < TASKS; i++)
        if (coming[i] < until && coming[i] < next) next = coming[i];
    if (next == UINT64_MAX) return 0;
    return next <= t || (running && running->ended) ? t + 1 : next;
}

/* Sleeps until an edge, or until the one behind the end of the process that has the processor, and says which it is. */
static uint64_t sleep_until(uint64_t next) {
    for (int64_t left; (left = (int64_t)next * TICK - now()) > 0;) {
        const struct timespec most = {.tv_sec = left / 1000000000, .tv_nsec = left % 1000000000};
        sigtimedwait(&child_ended, NULL, &most);
        look();
        const uint64_t soon = (uint64_t)(now() / TICK) + 1;
        if (running && running->ended && soon < next) next = soon;
    }
    const int64_t at = now(), late = at - (int64_t)next * TICK;
    if (late > latest) latest = late;
    return (uint64_t)(at / TICK);
}

/* The last processor is for the jobs, and the others for this program, which comes before all other work. */
static void take_place(void) {
    const struct sched_param priority = {.sched_priority = 2};
    size_t last = CPU_SETSIZE - 1;
    sched_getaffinity(0, sizeof others, &others);
    while (last > 0 && !CPU_ISSET(last, &others)) last--;
    CPU_SET(last, &commands);
    if (CPU_COUNT(&others) > 1) CPU_CLR(last, &others);
    sched_setaffinity(0, sizeof others, &others);
    if (sched_setscheduler(0, SCHED_FIFO, &priority) != 0) perror("live: no SCHED_FIFO, so other work may delay this");
    if (mlockall(MCL_CURRENT | MCL_FUTURE) != 0) perror("live: memory isn't locked, so pages may come late");
    sigaddset(&child_ended, SIGCHLD);
    sigprocmask(SIG_BLOCK, &child_ended, NULL);
}

int main(int words, char **word) {
    const long seconds = words > 1 ? strtol(word[1], NULL, 10) : 2;
    if (seconds < 1 || seconds > 60) return 1;
    until = (uint64_t)(seconds * 1000000000 / TICK);
    take_place();
    dover_init_factor(&engine, 10, 1, 4, 64, 2, 1); /* k = 10, by version 4 with the factor 2; at most 64 are open */
    if (dover_size() > sizeof engine || dover_status(&engine) != DOVER_MADE) return 2;
    for (int i = 0; i < TASKS; i++) coming[i] = tasks[i].offset;
    start = now();
    edge(0);
    for (uint64_t t = 0; (t = next_edge(t)) != 0;) edge(t = sleep_until(t));
    const dover_decision last = dover_finish(&engine);
    dover_drop(&engine);
    printf("worth %" PRIu64 " by the clock, and %" PRIu64 " by the decisions; the latest edge was seen %" PRId64
           " us late\n", value, last.tick, latest / 1000);
    return last.kind == DOVER_END ? 0 : 3;
}

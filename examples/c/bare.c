/* The engine where there is no operating system and no C library: the five functions below are all that it asks for,
   and memory comes from an arena. It serves the two jobs of examples/overload.feed and prints the trace, and then once
   more, since the arena is free again behind dover_drop. Only `say` and `leave` know that this program is run by Linux
   on x86-64, to be looked at: elsewhere these two, and the start, are the board's.
   Built with -ffreestanding -nostdlib -static. */
#include "dover.h"

/* As many jobs may be open, and so much memory is enough for them: 200 bytes for each, and a little more. In versions 1
   to 3 it would be 148. */
enum { CAPACITY = 100, ARENA = 24576, STEP = 16 };
static _Alignas(STEP) unsigned char arena[ARENA];
static size_t used;

/* Through volatile bytes, so that no compiler makes of the loop a call of the function that it stands in. */
void *memcpy(void *to, const void *from, size_t count) {
    volatile unsigned char *at = to;
    for (size_t i = 0; i < count; i++) at[i] = ((const unsigned char *)from)[i];
    return to;
}

void *memset(void *to, int byte, size_t count) {
    volatile unsigned char *at = to;
    for (size_t i = 0; i < count; i++) at[i] = (unsigned char)byte;
    return to;
}

/* The next block of the arena, with its length in front of it; none where the arena is used up. */
void *malloc(size_t count) {
    if (count > ARENA) return NULL;
    size_t length = (count + STEP - 1) / STEP * STEP;
    if (length + STEP > ARENA - used) return NULL;
    unsigned char *block = arena + used + STEP;
    *(size_t *)(void *)(block - STEP) = count;
    used += length + STEP;
    return block;
}

void *realloc(void *old, size_t count) {
    void *block = malloc(count);
    if (!block || !old) return block;
    size_t had = *(size_t *)(void *)((unsigned char *)old - STEP);
    return memcpy(block, old, had < count ? had : count);
}

/* All blocks are free at once: see `main_loop`. */
void free(void *block) {
    (void)block;
}

static long system_call(long number, long a, long b, long c) {
    long answer;
    __asm__ volatile("syscall" : "=a"(answer) : "a"(number), "D"(a), "S"(b), "d"(c) : "rcx", "r11", "memory");
    return answer;
}

static void say(const char *text) {
    size_t length = 0;
    while (text[length]) length++;
    (void)system_call(1, 1, (long)text, (long)length);
}

static _Noreturn void leave(int status) {
    for (;;) (void)system_call(60, status, 0, 0);
}

static void say_number(uint64_t number) {
    char digits[21];
    size_t at = sizeof digits - 1;
    digits[at] = 0;
    do digits[--at] = (char)('0' + number % 10);
    while (number /= 10);
    say(" ");
    say(digits + at);
}

static dover engine;
static const uint64_t jobs[2][4] = {{0, 4, 6, 8}, {1, 80, 82, 80}}; /* release, work, deadline, value */

/* What is done with a decision is the program's: this one prints it. */
static void act_on(dover_decision d) {
    static const char *const words[] = {"", "job", "run", "preempt", "take", "complete", "abandon", "end"};
    say(words[d.kind]);
    if (d.kind != DOVER_RELEASE) say_number(d.tick);
    if (d.kind == DOVER_PREEMPT || d.kind == DOVER_TAKE) say_number(d.other);
    if (d.kind != DOVER_END) say_number(d.job);
    for (int i = 0; i < 4 && d.kind == DOVER_RELEASE; i++) say_number(jobs[d.job][i]);
    say("\n");
}

static void settle(uint64_t mark) {
    dover_decision d;
    while ((d = dover_step(&engine, mark)).kind != DOVER_NONE) act_on(d);
}

static void serve(void) {
    dover_decision d;
    dover_init_factor(&engine, 2, 1, 4, CAPACITY, 2, 1);
    if (dover_status(&engine) != DOVER_MADE) leave(1);
    say("dover 4 2 1 2 1\n");
    for (int i = 0; i < 2; i++) {
        settle(jobs[i][0]);
        if (dover_admit(&engine, jobs[i][0], jobs[i][1], jobs[i][2], jobs[i][3]).status != DOVER_ADMITTED) leave(2);
        settle(jobs[i][0]);
    }
    while ((d = dover_finish(&engine)).kind != DOVER_NONE) act_on(d);
    dover_drop(&engine);
}

/* Linux starts here, with a stack that lies at a multiple of 16 bytes, as a call of a function leaves it behind. */
__asm__(".globl _start\n_start: call main_loop\n");
_Noreturn void main_loop(void);
_Noreturn void main_loop(void) {
    if (dover_size() > sizeof engine) leave(3);
    for (int round = 0; round < 2; round++) {
        serve();
        used = 0; /* no engine is left: the arena is all free */
    }
    leave(0);
}

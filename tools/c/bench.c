/* What calls cost: a crossing alone, and matches of 8,192 ticks, 3 copies (0, 8, 64 ticks behind) and four commands a tick, which
 * come one tick early, or up to 63 ticks early or late; with the host's worlds followed, and without. Beside them stands a plain
 * engine in C, which keeps worlds and lists of commands, no runs and no history, and comes to the same worlds.
 *
 *     bench [ROUNDS] */
#include <stdio.h>
#include <stdlib.h>
#include <string.h>
#include <time.h>
#include "tsync_mirror.h"

enum { COPIES = 3, LENGTH = 8192, EACH = 4, COMMANDS = LENGTH * EACH, CROSSINGS = 20000000 };

typedef struct { uint64_t calls, repaired, late, state; } tally;

static const uint32_t delays[COPIES] = {0, 8, 64};
static uint64_t state[COPIES];

static double now(void) {
    struct timespec t;
    clock_gettime(CLOCK_PROCESS_CPUTIME_ID, &t);
    return t.tv_sec + t.tv_nsec / 1e9;
}

static uint64_t after(uint64_t x, uint64_t n) { return x * 31 + n; }

static void set(void *h, uint32_t c, uint32_t f) {
    (void)h;
    state[c] = state[f];
}

static void execute(void *h, uint32_t c, const tsync_mirror_item *item) {
    (void)h;
    state[c] = after(state[c], item->number + item->is_beat);
}

/* at which tick a command is due that comes at this one */
static uint32_t due_of(uint32_t tick, int far) {
    int64_t due = far == 0 ? (int64_t)tick + 1 : (int64_t)tick + rand() % (2 * far + 1) - far;
    return due < 0 ? 0 : due >= LENGTH ? LENGTH - 1 : (uint32_t)due;
}

static void crossings(void) {
    tsync_mirror t = TSYNC_MIRROR_HANDLE;
    uint64_t sum = 0;
    if (tsync_mirror_new(&t, delays, COPIES, COPIES, LENGTH, 1000, 0).kind != TSYNC_MIRROR_MADE) exit(1);
    double start = now();
    for (int i = 0; i < CROSSINGS; i++) sum += tsync_mirror_clock(&t).kind;
    printf("tsync_mirror_clock: %.1f ns (%llu)\n", (now() - start) / CROSSINGS * 1e9, (unsigned long long)sum);
    tsync_mirror_free(&t);
}

/* ---- a match through the library */

static void played(tally *sum, int far, int follow) {
    uint32_t executed[COPIES] = {0}, number = 0;
    tsync_mirror_worlds worlds = {0, set, execute, executed};
    tsync_mirror t = TSYNC_MIRROR_HANDLE;
    if (tsync_mirror_new(&t, delays, COPIES, COPIES, LENGTH, COMMANDS, 0).kind != TSYNC_MIRROR_MADE) exit(1);
    for (uint32_t tick = 0; tick < LENGTH + delays[COPIES - 1]; tick++) {
        tsync_mirror_answer a = tsync_mirror_turn(&t);
        sum->calls++, sum->repaired += a.value;
        if (follow) tsync_mirror_follow(&t, a, &worlds);
        for (int i = 0; i < EACH && tick < LENGTH; i++) {
            a = tsync_mirror_arrive(&t, due_of(tick, far), 0, number++);
            sum->calls++, sum->late += a.kind == TSYNC_MIRROR_LATE;
            if (a.kind != TSYNC_MIRROR_TAKEN) continue;
            sum->repaired += a.value;
            if (follow) tsync_mirror_follow(&t, a, &worlds);
        }
    }
    tsync_mirror_free(&t);
}

/* ---- a match in the plain engine: each tick's commands are a list in order of their numbers */

typedef struct { uint32_t clock, clocks[COPIES]; int first[LENGTH], last[LENGTH], next[COMMANDS]; uint8_t has[COMMANDS]; } plain;

static void run_to(plain *p, int copy, uint32_t end) {
    for (; p->clocks[copy] < end; p->clocks[copy]++) {
        for (int i = p->first[p->clocks[copy]]; i >= 0; i = p->next[i]) state[copy] = after(state[copy], (uint64_t)i);
        state[copy] = after(state[copy], 1);
    }
}

static void plain_turn(plain *p) {
    p->clock++;
    for (int k = 0; k < COPIES; k++) {
        uint32_t limit = p->clock < delays[k] ? 0 : p->clock - delays[k];
        if (p->clocks[k] < limit && p->clocks[k] < LENGTH) run_to(p, k, p->clocks[k] + 1);
    }
}

/* whether it is late; the copies that have passed its time are set from the one behind them, and run again */
static int plain_arrive(plain *p, uint32_t time, int number, uint64_t *repaired) {
    int passed = 0;
    if (p->has[number]) return 0;
    if (time < p->clocks[COPIES - 1]) return 1;
    p->has[number] = 1, p->next[number] = -1;
    if (p->first[time] < 0) p->first[time] = number;
    else p->next[p->last[time]] = number;
    p->last[time] = number;
    while (p->clocks[passed] > time) passed++;
    *repaired += (uint64_t)passed;
    for (int k = passed - 1; k >= 0; k--) {
        uint32_t end = p->clocks[k];
        state[k] = state[k + 1], p->clocks[k] = p->clocks[k + 1];
        run_to(p, k, end);
    }
    return 0;
}

static void played_plainly(tally *sum, int far) {
    plain *p = calloc(1, sizeof *p);
    int number = 0;
    if (!p) exit(1);
    memset(p->first, -1, sizeof p->first);
    for (uint32_t tick = 0; tick < LENGTH + delays[COPIES - 1]; tick++) {
        plain_turn(p), sum->calls++;
        for (int i = 0; i < EACH && tick < LENGTH; i++) sum->late += (uint64_t)plain_arrive(p, due_of(tick, far), number++, &sum->repaired), sum->calls++;
    }
    free(p);
}

/* ---- matches of one kind: by the library, its worlds followed or left, or plain */

enum { LEFT, FOLLOWED, PLAIN };
static const char *const names[] = {"library, worlds left", "library, worlds followed", "plain engine"};

static tally matches(int rounds, int far, int kind) {
    tally sum = {0, 0, 0, 0};
    double start = now(), took;
    for (int r = 0; r < rounds; r++) {
        srand((unsigned)r);
        memset(state, 0, sizeof state);
        if (kind == PLAIN) played_plainly(&sum, far);
        else played(&sum, far, kind == FOLLOWED);
        if (state[0] != state[1] || state[1] != state[2]) exit(2);
        sum.state = after(sum.state, state[0]);
    }
    took = now() - start;
    printf("%s, %s: %llu calls, %.0f ns each, %.1f million a second; repaired %llu, late %llu\n", far ? "up to 63 ticks early or late" : "one tick early",
           names[kind], (unsigned long long)sum.calls, took / sum.calls * 1e9, sum.calls / took / 1e6, (unsigned long long)sum.repaired, (unsigned long long)sum.late);
    return sum;
}

int main(int argc, char **argv) {
    int rounds = argc > 1 ? atoi(argv[1]) : 10;
    crossings();
    for (int far = 0; far <= 63; far += 63) {
        matches(rounds, far, LEFT);
        tally followed = matches(rounds, far, FOLLOWED), plainly = matches(rounds, far, PLAIN);
        if (followed.state != plainly.state || followed.late != plainly.late) {
            puts("the worlds differ");
            return 3;
        }
    }
    return 0;
}

/* A host that joins late: a match of 40 ticks with a command a tick, some of them due later, of which a second host
 * sees only what comes from tick 17 on. It catches up by turns. It prints the snapshot, where the two hosts are answered otherwise,
 * and the worlds of both at the end, which are equal since both accepted the same. */
#include <stdio.h>
#include <stdlib.h>
#include "tsync_mirror.h"

enum { COPIES = 3, LENGTH = 40, JOINS = 17 };

typedef struct { uint64_t worlds[COPIES]; uint32_t executed[COPIES]; tsync_mirror t; tsync_mirror_worlds calls; } host;

static const uint32_t delays[2 * COPIES] = {0, 3, 6, 0, 4, 9};

static void set(void *h, uint32_t copy, uint32_t from) { ((host *)h)->worlds[copy] = ((host *)h)->worlds[from]; }

/* the payload of a command is its number */
static void execute(void *h, uint32_t copy, const tsync_mirror_item *item) {
    uint64_t *x = &((host *)h)->worlds[copy];
    *x = item->is_beat ? 7 * *x : 3 * *x + item->number;
}

static void begin(host *h, uint64_t world) {
    for (int k = 0; k < COPIES; k++) h->worlds[k] = world, h->executed[k] = 0;
    h->calls = (tsync_mirror_worlds){h, set, execute, h->executed};
}

static void follow(host *h, tsync_mirror_answer a) { tsync_mirror_follow(&h->t, a, &h->calls); }

static tsync_mirror_answer arrive(host *h, uint32_t time, uint32_t number) {
    tsync_mirror_answer a = tsync_mirror_arrive(&h->t, time, 0, number);
    follow(h, a);
    return a;
}

/* opens the joiner from the first host */
static uint32_t join(host *late, host *first) {
    tsync_mirror_command accepted[LENGTH];
    tsync_mirror_snapshot s = {0, 0, accepted, 0};
    s.clock = tsync_mirror_copy_clock(&first->t, COPIES - 1).value;
    s.plan = tsync_mirror_plan(&first->t).value;
    s.count = tsync_mirror_accepted(&first->t, 0, accepted, LENGTH).value;
    begin(late, first->worlds[COPIES - 1]);
    if (tsync_mirror_join(&late->t, delays, 2 * COPIES, COPIES, LENGTH, 2 * LENGTH, 1, &s).kind != TSYNC_MIRROR_MADE) exit(1);
    for (uint32_t n = tsync_mirror_clock(&first->t).value - s.clock; n > 0; n--) follow(late, tsync_mirror_turn(&late->t));
    printf("joins at %u under plan %u, of %zu accepted\n", s.clock, s.plan, s.count);
    return s.clock;
}

int main(void) {
    host first = {.t = TSYNC_MIRROR_HANDLE}, late = {.t = TSYNC_MIRROR_HANDLE};
    uint32_t start = 0;
    begin(&first, 1);
    if (tsync_mirror_new(&first.t, delays, 2 * COPIES, COPIES, LENGTH, 2 * LENGTH, 1).kind != TSYNC_MIRROR_MADE) return 1;
    srand(5);
    for (uint32_t now = 0; now < 2 * LENGTH; now++) {
        if (now == 9) tsync_mirror_restagger(&first.t, 1);
        if (now == JOINS) start = join(&late, &first);
        follow(&first, tsync_mirror_turn(&first.t));
        if (now >= JOINS) follow(&late, tsync_mirror_turn(&late.t));
        if (now >= LENGTH) continue;
        /* every fifth is due four ticks ago, the others up to five ticks later */
        uint32_t due = now % 5 == 4 ? now - 4 : now + (uint32_t)rand() % 6;
        if (due >= LENGTH) continue;
        tsync_mirror_answer a = arrive(&first, due, now);
        tsync_mirror_answer b = now < JOINS ? a : due < start ? (tsync_mirror_answer){TSYNC_MIRROR_LATE, start} : arrive(&late, due - start, now);
        if (a.kind != b.kind) printf("%u for %u: %u here, %u there\n", now, due, a.kind, b.kind);
    }
    for (int k = 0; k < COPIES; k++) {
        printf("world %d: %llu %llu\n", k, (unsigned long long)first.worlds[k], (unsigned long long)late.worlds[k]);
        if (first.worlds[k] != late.worlds[k]) return 2;
    }
    tsync_mirror_free(&first.t);
    tsync_mirror_free(&late.t);
    puts("equal");
    return 0;
}

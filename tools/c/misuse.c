/* What wrong calls are answered, and the lists of a mirror. */
#include <stdio.h>
#include "tsync_mirror.h"

static void without_an_engine(tsync_mirror *t) {
    tsync_mirror_item item[1];
    tsync_mirror_command command[1];
    tsync_mirror_turned_item turned[1];
    tsync_mirror_history_item event[1];
    printf("no engine: %u %u %u %u %u %u %u", tsync_mirror_tick(t).kind, tsync_mirror_turn(t).kind, tsync_mirror_step(t, 0).kind, tsync_mirror_arrive(t, 0, 0, 0).kind,
           tsync_mirror_restagger(t, 0).kind, tsync_mirror_clock(t).kind, tsync_mirror_copy_clock(t, 0).kind);
    printf(" %u %u %u", tsync_mirror_length(t).kind, tsync_mirror_copies(t).kind, tsync_mirror_drained(t).kind);
    printf(" %u %u %u %u %u %u %u\n", tsync_mirror_run_len(t, 0).kind, tsync_mirror_spare(t).kind, tsync_mirror_plan(t).kind, tsync_mirror_items(t, 0, 0, item, 1).kind,
           tsync_mirror_accepted(t, 0, command, 1).kind, tsync_mirror_turned(t, 0, turned, 1).kind, tsync_mirror_history(t, 0, event, 1).kind);
}

static void not_legal(tsync_mirror *t) {
    uint32_t d[9] = {0, 1, 2, 3, 4, 5, 6, 7, 8}, same[2] = {1, 1}, falling[2] = {3, 2}, far[1] = {1025};
    printf("not legal: %u %u %u %u %u", tsync_mirror_new(t, NULL, 0, 0, 5, 1, 0).kind, tsync_mirror_new(t, d, 9, 9, 5, 1, 0).kind, tsync_mirror_new(t, same, 2, 2, 5, 1, 0).kind,
           tsync_mirror_new(t, falling, 2, 2, 5, 1, 0).kind, tsync_mirror_new(t, far, 1, 1, 5, 1, 0).kind);
    printf(" %u %u %u %u %u %u\n", tsync_mirror_new(t, d, 3, 2, 5, 1, 0).kind, tsync_mirror_new(t, d, 2, 2, 0, 1, 0).kind, tsync_mirror_new(t, d, 2, 2, 8193, 1, 0).kind,
           tsync_mirror_new(t, d, 2, 2, 5, 1048577, 0).kind, tsync_mirror_new(t, d, 2, 2, 5, 1, 1048577).kind, tsync_mirror_new(t, d, 9, 1, 5, 1, 0).kind);
}

/* no tick is left, twice; no such plan; no room for what was accepted, or for the change of the plan; then one that is made */
static void joiners(tsync_mirror *t) {
    uint32_t d[2] = {0, 1};
    tsync_mirror_command accepted[2] = {{0, 0, 3}, {0, 1, 4}};
    tsync_mirror_snapshot at_end = {5, 0, accepted, 2}, past = {6, 0, accepted, 2}, other = {1, 1, accepted, 2}, early = {1, 0, accepted, 2}, late = {4, 0, accepted, 2};
    printf("no joiner: %u %u %u %u %u", tsync_mirror_join(t, d, 2, 2, 5, 2, 1, &at_end).kind, tsync_mirror_join(t, d, 2, 2, 5, 2, 1, &past).kind,
           tsync_mirror_join(t, d, 2, 2, 5, 2, 1, &other).kind, tsync_mirror_join(t, d, 2, 2, 5, 1, 1, &early).kind, tsync_mirror_join(t, d, 2, 2, 5, 2, 0, &early).kind);
    printf(", and no engine: %u\n", tsync_mirror_clock(t).kind);
    printf("joiner: %u", tsync_mirror_join(t, d, 2, 2, 5, 2, 1, &late).kind);
    printf(", room %u\n", tsync_mirror_spare(t).value);
}

/* what is refused leaves the engine that is there */
static void refused_over_an_engine(tsync_mirror *t) {
    uint32_t d[2] = {0, 5}, falling[2] = {3, 2};
    tsync_mirror_command accepted[2] = {{0, 0, 3}, {0, 1, 4}};
    tsync_mirror_snapshot other = {1, 1, accepted, 2}, early = {1, 0, accepted, 2};
    printf("over an engine: %u %u", tsync_mirror_new(t, d, 2, 2, 0, 1, 0).kind, tsync_mirror_new(t, falling, 2, 2, 5, 1, 0).kind);
    printf(" %u %u", tsync_mirror_join(t, d, 2, 2, 5, 2, 1, &other).kind, tsync_mirror_join(t, d, 2, 2, 5, 1, 1, &early).kind);
    printf(", clock %u, length %u, copies %u, drained %u\n", tsync_mirror_clock(t).value, tsync_mirror_length(t).value, tsync_mirror_copies(t).value,
           tsync_mirror_drained(t).value);
}

/* a late command that comes again takes no room, and is answered so where there is none; numbers that don't fit are refused */
static void again_and_again(void) {
    tsync_mirror t = TSYNC_MIRROR_HANDLE;
    uint32_t d[1] = {0};
    tsync_mirror_turned_item turned[2];
    if (tsync_mirror_new(&t, d, 1, 1, 5, 2, 0).kind != TSYNC_MIRROR_MADE) return;
    tsync_mirror_turn(&t), tsync_mirror_turn(&t);
    printf("late: %u", tsync_mirror_arrive(&t, 0, 7, 1).kind);
    for (int i = 0; i < 3; i++) printf(" %u", tsync_mirror_arrive(&t, 0, 7, 1).kind);
    printf(", room %u, noted %u", tsync_mirror_spare(&t).value, tsync_mirror_turned(&t, 0, turned, 2).value);
    printf(", taken %u", tsync_mirror_arrive(&t, 4, 7, 2).kind);
    printf(", then none: %u", tsync_mirror_arrive(&t, 4, 7, 3).kind);
    printf(", late %u, repeat %u, other %u\n", tsync_mirror_arrive(&t, 0, 7, 1).kind, tsync_mirror_arrive(&t, 9, 7, 2).kind, tsync_mirror_arrive(&t, 0, 7, 4).kind);
    printf("too wide: %u %u %u %u %u\n", tsync_mirror_arrive(&t, 4, 256 + 7, 2).kind, tsync_mirror_step(&t, 256).kind, tsync_mirror_copy_clock(&t, 256).kind,
           tsync_mirror_run_len(&t, 256).kind, tsync_mirror_restagger(&t, 256).kind);
    tsync_mirror_free(&t);
}

/* a world that calls its mirror is answered that there is none */
typedef struct { tsync_mirror t; uint32_t said; } caller;

static void nothing(void *h, uint32_t copy, uint32_t from) { (void)h, (void)copy, (void)from; }

static void calls(void *h, uint32_t copy, const tsync_mirror_item *item) {
    caller *c = h;
    (void)copy, (void)item;
    c->said = tsync_mirror_arrive(&c->t, 3, 0, 1).kind;
}

static void from_within(void) {
    caller c = {TSYNC_MIRROR_HANDLE, 0};
    uint32_t d[1] = {0}, executed[1] = {0};
    tsync_mirror_worlds w = {&c, nothing, calls, executed};
    tsync_mirror_answer late = {TSYNC_MIRROR_LATE, 1000};
    if (tsync_mirror_new(&c.t, d, 1, 1, 5, 2, 0).kind != TSYNC_MIRROR_MADE) return;
    tsync_mirror_follow(&c.t, tsync_mirror_turn(&c.t), &w);
    printf("from within: %u, executed %u, clock %u", c.said, executed[0], tsync_mirror_clock(&c.t).value);
    tsync_mirror_follow(&c.t, late, &w);
    tsync_mirror_drain(&c.t, &w);
    printf("; drained %u, executed %u\n", tsync_mirror_drained(&c.t).value, executed[0]);
    tsync_mirror_free(&c.t);
}

int main(void) {
    tsync_mirror t = TSYNC_MIRROR_HANDLE;
    uint32_t two[4] = {0, 5, 1, 2};
    tsync_mirror_item item[1];
    tsync_mirror_command commands[2];
    tsync_mirror_turned_item turned[2];
    tsync_mirror_history_item events[64];
    without_an_engine(&t);
    not_legal(&t);
    joiners(&t);
    printf("made: %u\n", tsync_mirror_new(&t, two, 4, 2, 5, 2, 1).kind);
    printf("not there: %u %u %u %u %u %u %u %u; room 0: %u\n", tsync_mirror_step(&t, 2).kind, tsync_mirror_step(&t, 255).kind, tsync_mirror_items(&t, 0, 1, item, 1).kind,
           tsync_mirror_copy_clock(&t, 2).kind, tsync_mirror_restagger(&t, 2).kind, tsync_mirror_accepted(&t, 1, commands, 2).kind, tsync_mirror_turned(&t, 1, turned, 2).kind,
           tsync_mirror_history(&t, 1, events, 64).kind, tsync_mirror_items(&t, 0, 0, item, 0).value);
    refused_over_an_engine(&t);
    printf("beyond: %u %u\n", tsync_mirror_arrive(&t, 5, 0, 0).kind, tsync_mirror_arrive(&t, 0xffffffffu, 0, 0).kind);
    printf("room %u", tsync_mirror_spare(&t).value);
    printf(", taken: %u", tsync_mirror_arrive(&t, 4, 0, 0).kind);
    printf(", again: %u", tsync_mirror_arrive(&t, 4, 0, 0).kind);
    printf(", room %u\n", tsync_mirror_spare(&t).value);
    printf("restaggered: %u", tsync_mirror_restagger(&t, 1).kind);
    printf(", no room: %u, plan %u\n", tsync_mirror_restagger(&t, 0).kind, tsync_mirror_plan(&t).value);
    for (int i = 0; i < 4; i++) tsync_mirror_turn(&t);
    printf("clocks: %u %u %u\n", tsync_mirror_clock(&t).value, tsync_mirror_copy_clock(&t, 0).value, tsync_mirror_copy_clock(&t, 1).value);
    tsync_mirror_answer late = tsync_mirror_arrive(&t, 1, 3, 9);
    printf("late: %u, bound %u, then no room: %u\n", late.kind, late.value, tsync_mirror_arrive(&t, 4, 0, 1).kind);
    uint32_t n = tsync_mirror_accepted(&t, 0, commands, 2).value;
    printf("accepted %u: %u.%u for %u\n", n, commands[0].from, commands[0].number, commands[0].time);
    n = tsync_mirror_turned(&t, 0, turned, 2).value;
    printf("turned away %u: %u.%u, bound %u\n", n, turned[0].from, turned[0].number, turned[0].bound);
    n = tsync_mirror_history(&t, 0, events, 64).value;
    printf("history of %u:", n);
    for (uint32_t i = 0; i < n; i++)
        if (events[i].what == TSYNC_MIRROR_AN_ARRIVAL) printf(" arrive %u.%u for %u", events[i].from, events[i].number, events[i].time);
        else if (events[i].what == TSYNC_MIRROR_A_TICK) printf(" tick");
        else printf(" %s %u", events[i].what == TSYNC_MIRROR_A_STEP ? "step" : "restagger", events[i].which);
    printf("\nmade over one that was there: %u\n", tsync_mirror_new(&t, two, 2, 2, 5, 1, 0).kind);
    tsync_mirror_free(&t);
    tsync_mirror_free(&t);
    without_an_engine(&t);
    again_and_again();
    from_within();
    return 0;
}

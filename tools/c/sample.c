/* A tiny game over the library: three copies of a world of one number, x -> 3 x + payload, and 7 x at a
 * tick's end. It prints each answer, and at the end the worlds beside the time-ordered execution. */
#include <stdio.h>
#include <stdlib.h>
#include "tsync_mirror.h"

enum { COPIES = 3, LENGTH = 20, COMMANDS = 30 };

typedef struct { uint32_t time, payload; } order;
typedef struct { uint64_t worlds[COPIES]; order *orders; } host;

static uint64_t after(uint64_t x, uint64_t payload) { return 3 * x + payload; }
static uint64_t beaten(uint64_t x) { return 7 * x; }

static void set(void *h, uint32_t copy, uint32_t from) { ((host *)h)->worlds[copy] = ((host *)h)->worlds[from]; }

static void execute(void *h, uint32_t copy, const tsync_mirror_item *item) {
    host *g = h;
    uint64_t x = g->worlds[copy];
    g->worlds[copy] = item->is_beat ? beaten(x) : after(x, g->orders[item->number].payload);
}

/* what every copy comes to: each tick's commands by number, and then its end */
static uint64_t in_order(const order *orders, const int *taken) {
    uint64_t x = 1;
    for (uint32_t tick = 0; tick < LENGTH; tick++) {
        for (int i = 0; i < COMMANDS; i++)
            if (taken[i] && orders[i].time == tick) x = after(x, orders[i].payload);
        x = beaten(x);
    }
    return x;
}

int main(void) {
    order orders[COMMANDS];
    host game = {{1, 1, 1}, orders};
    uint32_t delays[COPIES] = {0, 3, 6}, executed[COPIES] = {0};
    tsync_mirror_worlds worlds = {&game, set, execute, executed};
    tsync_mirror t = TSYNC_MIRROR_HANDLE;
    int taken[COMMANDS] = {0};
    tsync_mirror_answer a;

    srand(7);
    for (int i = 0; i < COMMANDS; i++) orders[i] = (order){(uint32_t)rand() % LENGTH, (uint32_t)rand() % 100};
    if (tsync_mirror_new(&t, delays, COPIES, COPIES, LENGTH, COMMANDS, 0).kind != TSYNC_MIRROR_MADE) return 1;
    for (uint32_t now = 0, next = 0; now < LENGTH; now++) {
        a = tsync_mirror_turn(&t);
        tsync_mirror_follow(&t, a, &worlds);
        if (a.value) printf("turn %u repairs %u\n", now, a.value);
        for (; next < COMMANDS && next < 2 * now; next++) { /* out of order, some too late */
            a = tsync_mirror_arrive(&t, orders[next].time, 0, next);
            tsync_mirror_follow(&t, a, &worlds);
            if (a.kind == TSYNC_MIRROR_TAKEN) taken[next] = 1;
            printf("arrive %u for %u: %s %u\n", next, orders[next].time, tsync_mirror_kind(a.kind), a.value);
        }
    }
    tsync_mirror_drain(&t, &worlds);
    for (uint32_t c = 0; c < COPIES; c++) {
        printf("world %u at %u: %llu\n", c, tsync_mirror_copy_clock(&t, c).value, (unsigned long long)game.worlds[c]);
        if (game.worlds[c] != in_order(orders, taken)) return 2;
    }
    tsync_mirror_free(&t);
    puts("equal to the time-ordered execution of what was accepted");
    return 0;
}

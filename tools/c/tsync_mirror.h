/* One mirror of Trailing State Synchronization, for C and whatever calls C.
 *
 * The host keeps its worlds, one for each copy, in any language and of any game, and the payload of each command, by
 * (from, number). The library keeps which commands are accepted, what each copy has run, the clocks, and what is late or
 * repaired. What each call changes and answers is proved, in the words of docs/MODEL.md, for every handle that
 * tsync_mirror_new made, and so is that a host that follows the mirror as tsync_mirror_follow does has in each copy the world of
 * what the copy has run. Not proved are this header with the functions that it defines, and the C of the host.
 *
 * A handle is 16 bytes of the host's, all zeroes before tsync_mirror_new and after tsync_mirror_free: then every call
 * answers TSYNC_MIRROR_NO_ENGINE. It must not be null. It may be moved: of its copies one is used. One call at a time uses it, also
 * one that only asks, since each takes the engine out of the handle and puts it back; a lock may hand it to another thread.
 * Pointers that come with a length may be null where that is 0, else they are to what is there. Memory comes from malloc, in
 * tsync_mirror_new and what calls it. A call that is refused, with a kind from TSYNC_MIRROR_NO_ENGINE on, changes nothing. */
#ifndef TSYNC_MIRROR_H
#define TSYNC_MIRROR_H

#include <stddef.h>
#include <stdint.h>

#ifdef __cplusplus
extern "C" {
#endif

typedef struct { void *engine; uint32_t live; } tsync_mirror;
#define TSYNC_MIRROR_HANDLE { NULL, 0 }

/* a handle is passed as the library has it: 64-bit pointers */
typedef char tsync_mirror_is_16_bytes[sizeof(tsync_mirror) == 16 ? 1 : -1];

enum {
    TSYNC_MIRROR_MOVED = 0,       /* the clock went on by one tick */
    TSYNC_MIRROR_OVER = 1,        /* the clock stands at its end: the match's length and the longest delay in force */
    TSYNC_MIRROR_TAKEN = 2,       /* accepted; value: how many copies were repaired, from copy 0 on */
    TSYNC_MIRROR_REPEAT = 3,      /* this (from, number) was accepted before, due at whatever tick */
    TSYNC_MIRROR_LATE = 4,        /* turned away; value: the last copy's clock, the bound */
    TSYNC_MIRROR_RAN = 5,         /* the copy ran a tick; value: how many copies were repaired, from copy 0 on */
    TSYNC_MIRROR_IDLE = 6,        /* the copy stands at its limit */
    TSYNC_MIRROR_RESTAGGERED = 7, /* another plan is in force */
    TSYNC_MIRROR_VALUE = 8,       /* value: what was asked */
    TSYNC_MIRROR_MADE = 9,        /* the engine was made */
    TSYNC_MIRROR_NO_ENGINE = 16,  /* the handle holds no engine, or the call comes from within tsync_mirror_follow */
    TSYNC_MIRROR_NOT_THERE = 17,  /* no such copy, plan or place, or no such mirror: from is above 255 */
    TSYNC_MIRROR_BEYOND = 18,     /* due at the match's end or later */
    TSYNC_MIRROR_NO_ROOM = 19,    /* no room for another arrival or change of the plan */
    TSYNC_MIRROR_NOT_LEGAL = 20,  /* delays, length or room out of range */
    TSYNC_MIRROR_NO_MEMORY = 21   /* memory ran out */
};

/* what happened, in a history */
enum {
    TSYNC_MIRROR_A_TICK = 0,      /* a tick of the clock */
    TSYNC_MIRROR_AN_ARRIVAL = 1,  /* an arrival, taken or turned away */
    TSYNC_MIRROR_A_STEP = 2,      /* a copy ran a tick; which: the copy */
    TSYNC_MIRROR_A_RESTAGGER = 3  /* another plan; which: the plan */
};

typedef struct { uint32_t kind, value; } tsync_mirror_answer;
typedef struct { uint32_t is_beat, from, number, time; } tsync_mirror_item;
typedef struct { uint32_t from, number, time; } tsync_mirror_command;
typedef struct { uint32_t from, number, bound; } tsync_mirror_turned_item;
typedef struct { uint32_t what, which, time, from, number; } tsync_mirror_history_item;

/* The delays are those of 1 to 8 plans, one plan after another, count numbers in all; each plan has so many copies, 1 to
 * 8, and rising delays in ticks, each at most 1,024. The first is in force. A match of 1 to 8,192 ticks; room for so many
 * arrivals that are taken or turned away, and so many changes of the plan, each at most 1,048,576. An engine that was
 * there is freed once the new one is made; where the call is refused, it stays. */
tsync_mirror_answer tsync_mirror_new(tsync_mirror *t, const uint32_t *delays, size_t count, size_t copies, uint32_t length, uint32_t room, uint32_t restaggers);
/* Frees the engine, where there is one. */
void tsync_mirror_free(tsync_mirror *t);

/* The clock goes on by a tick. */
tsync_mirror_answer tsync_mirror_tick(tsync_mirror *t);
/* A command of mirror from, 0 to 255, that is due at tick time arrives. Looked at in this order: no such mirror, REPEAT,
 * LATE again (a command that was turned away is noted once, however often it comes, and found by a look through all that
 * was turned away), BEYOND, NO_ROOM; then it is taken, or turned away for the first time, which both take room. */
tsync_mirror_answer tsync_mirror_arrive(tsync_mirror *t, uint32_t time, uint32_t from, uint32_t number);
/* A copy runs a tick, where it may; another plan is in force from here on. */
tsync_mirror_answer tsync_mirror_step(tsync_mirror *t, uint32_t copy);
tsync_mirror_answer tsync_mirror_restagger(tsync_mirror *t, uint32_t plan);
/* A tick, and then a step of each copy from copy 0 on. kind: the tick's; value: the most copies that one of the steps
 * repaired. Once OVER, turns go on bringing copies to the match's end. */
tsync_mirror_answer tsync_mirror_turn(tsync_mirror *t);

/* The clock, the clock of a copy, and how many items a copy has run: its commands and its ticks' ends. */
tsync_mirror_answer tsync_mirror_clock(tsync_mirror *t);
tsync_mirror_answer tsync_mirror_copy_clock(tsync_mirror *t, uint32_t copy);
tsync_mirror_answer tsync_mirror_run_len(tsync_mirror *t, uint32_t copy);
/* The match's length in ticks, and how many copies there are. */
tsync_mirror_answer tsync_mirror_length(tsync_mirror *t);
tsync_mirror_answer tsync_mirror_copies(tsync_mirror *t);
/* 1 where each copy has run the whole match, else 0. Before that, worlds of two mirrors needn't be one. */
tsync_mirror_answer tsync_mirror_drained(tsync_mirror *t);
/* For how many more arrivals there is room. */
tsync_mirror_answer tsync_mirror_spare(tsync_mirror *t);
/* The number of the plan that is in force. */
tsync_mirror_answer tsync_mirror_plan(tsync_mirror *t);

/* Each puts what stands in a list from a place on into out, as many as there are and fit; value: how many. The lists are
 * a copy's run, what was accepted and what was turned away, in order of arrival, and the events that changed the mirror. */
tsync_mirror_answer tsync_mirror_items(tsync_mirror *t, uint32_t copy, uint32_t place, tsync_mirror_item *out, size_t room);
tsync_mirror_answer tsync_mirror_accepted(tsync_mirror *t, uint32_t place, tsync_mirror_command *out, size_t room);
tsync_mirror_answer tsync_mirror_turned(tsync_mirror *t, uint32_t place, tsync_mirror_turned_item *out, size_t room);
tsync_mirror_answer tsync_mirror_history(tsync_mirror *t, uint32_t place, tsync_mirror_history_item *out, size_t room);

/* A kind in words. */
static inline const char *tsync_mirror_kind(uint32_t kind) {
    switch (kind) {
    case TSYNC_MIRROR_MOVED: return "moved";
    case TSYNC_MIRROR_OVER: return "over";
    case TSYNC_MIRROR_TAKEN: return "taken";
    case TSYNC_MIRROR_REPEAT: return "repeat";
    case TSYNC_MIRROR_LATE: return "late";
    case TSYNC_MIRROR_RAN: return "ran";
    case TSYNC_MIRROR_IDLE: return "idle";
    case TSYNC_MIRROR_RESTAGGERED: return "restaggered";
    case TSYNC_MIRROR_VALUE: return "value";
    case TSYNC_MIRROR_MADE: return "made";
    case TSYNC_MIRROR_NO_ENGINE: return "no engine";
    case TSYNC_MIRROR_NOT_THERE: return "not there";
    case TSYNC_MIRROR_BEYOND: return "beyond the end";
    case TSYNC_MIRROR_NO_ROOM: return "no room";
    case TSYNC_MIRROR_NOT_LEGAL: return "not legal";
    case TSYNC_MIRROR_NO_MEMORY: return "out of memory";
    default: return "no kind";
    }
}

/* The worlds of a host: set makes the world of one copy equal to another's, execute executes an item in a copy's world.
 * executed[k] is how many items world k has executed, 0 at first. */
typedef struct {
    void *host;
    void (*set)(void *host, uint32_t copy, uint32_t from_copy);
    void (*execute)(void *host, uint32_t copy, const tsync_mirror_item *item);
    uint32_t *executed;
} tsync_mirror_worlds;

/* How many copies an answer says were repaired. */
static inline uint32_t tsync_mirror_repaired(tsync_mirror_answer a) {
    return a.kind == TSYNC_MIRROR_TAKEN || a.kind == TSYNC_MIRROR_RAN || a.kind == TSYNC_MIRROR_MOVED || a.kind == TSYNC_MIRROR_OVER ? a.value : 0;
}

/* What a host does after tsync_mirror_arrive, tsync_mirror_step or tsync_mirror_turn, with what was answered: from the last copy to
 * copy 0, a repaired one is set from the copy behind it, and each executes what it has not run. After several calls it may
 * follow once, with the answer that says the most repaired copies (tsync_mirror_repaired). While set and execute run, the handle is
 * empty, so a call of theirs is answered NO_ENGINE. Neither may leave by longjmp or an exception: then it stays empty. */
static inline void tsync_mirror_follow(tsync_mirror *t, tsync_mirror_answer a, const tsync_mirror_worlds *w) {
    static const tsync_mirror none = TSYNC_MIRROR_HANDLE;
    uint32_t repaired = tsync_mirror_repaired(a), k = tsync_mirror_copies(t).value;
    tsync_mirror own = *t;
    *t = none;
    while (k-- > 0) {
        tsync_mirror_item items[64];
        uint32_t n;
        if (k < repaired) {
            w->set(w->host, k, k + 1);
            w->executed[k] = w->executed[k + 1];
        }
        while ((n = tsync_mirror_items(&own, k, w->executed[k], items, 64).value) > 0)
            for (uint32_t i = 0; i < n; i++) {
                w->execute(w->host, k, &items[i]);
                w->executed[k]++;
            }
    }
    tsync_mirror_free(t);
    *t = own;
}

/* The end of a match: turns, each followed, until each copy has run the whole match. */
static inline void tsync_mirror_drain(tsync_mirror *t, const tsync_mirror_worlds *w) {
    while (tsync_mirror_drained(t).kind == TSYNC_MIRROR_VALUE && !tsync_mirror_drained(t).value)
        tsync_mirror_follow(t, tsync_mirror_turn(t), w);
}

/* What a host hands to one that joins late, beside the world of its last copy: that copy's clock, the plan in force, and
 * what was accepted. Nothing happens at the mirror between these looks. */
typedef struct {
    uint32_t clock, plan;
    const tsync_mirror_command *accepted;
    size_t count;
} tsync_mirror_snapshot;

/* Makes the engine of a host that joins late, over the ticks that are left: all its times and clocks are counted from the
 * snapshot's clock. It has the match's plans, moves to the one in force, and takes what was accepted and is due from the
 * clock on; it needs room for that, and for one change of the plan. Each of its worlds begins as the one that was handed
 * over, with nothing executed. What comes later arrives at its time less the clock; what is due before the clock is in that
 * world, or is missed: the host answers such a command itself, and keeps the clock for a snapshot of its own. By turns it
 * catches up: as many as the other's clock is ahead of the snapshot's. NOT_LEGAL also where no tick is left. An engine
 * that was there is freed once the new one is made; where the call is refused, it stays. */
static inline tsync_mirror_answer tsync_mirror_join(tsync_mirror *t, const uint32_t *delays, size_t count, size_t copies, uint32_t length, uint32_t room, uint32_t restaggers, const tsync_mirror_snapshot *s) {
    tsync_mirror fresh = TSYNC_MIRROR_HANDLE;
    tsync_mirror_answer made = tsync_mirror_new(&fresh, delays, count, copies, length < s->clock ? 0 : length - s->clock, room, restaggers);
    tsync_mirror_answer a = made.kind == TSYNC_MIRROR_MADE ? tsync_mirror_restagger(&fresh, s->plan) : made;
    for (size_t i = 0; i < s->count && a.kind < TSYNC_MIRROR_NO_ENGINE; i++)
        if (s->accepted[i].time >= s->clock)
            a = tsync_mirror_arrive(&fresh, s->accepted[i].time - s->clock, s->accepted[i].from, s->accepted[i].number);
    if (a.kind >= TSYNC_MIRROR_NO_ENGINE) {
        tsync_mirror_free(&fresh);
        return a;
    }
    tsync_mirror_free(t);
    *t = fresh;
    return made;
}

#ifdef __cplusplus
}
#endif
#endif

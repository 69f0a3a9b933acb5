/* One peer of a session without an end, for C and whatever calls C: a mirror of Trailing State Synchronization with
 * its links to the others, and without a socket, a clock or a world.
 *
 * The host owns the socket, the clock and the worlds. At each tick it calls tsync_peer_turn, at each act of its players
 * tsync_peer_own; it sends what tsync_peer_packet makes, one datagram for each other peer, and hands each datagram that
 * comes to tsync_peer_hear. Whatever the net loses, repeats, reorders or delays, each peer has a front of what each other
 * one issued, each command of it was either accepted or turned away, and where two have accepted the same their last
 * copies come to the same world. docs/EMBED.md says how a host goes about it.
 *
 * A handle is 16 bytes of the host's, all zeroes before tsync_peer_new or tsync_peer_join and after tsync_peer_free: then every
 * call answers TSYNC_PEER_NO_PEER. It must not be null, copied, changed, or used by two calls at a time, and it stays on
 * its thread. Pointers that come with a length may be null where that is 0; else all are to what is there, and none
 * overlap. Memory comes from malloc, in tsync_peer_new and tsync_peer_join alone. A call that is refused, with a kind from
 * TSYNC_PEER_NO_PEER on, changes nothing, but for tsync_peer_join, which frees the peer that was there at once.
 *
 * What is owed: all peers of a session are made with one session number, slots and payload; the number is drawn anew
 * for each session. A slot is used by one life of one process: whoever comes back joins in a slot that nobody had.
 * A carrier that strangers can write to adds its own proof of who sent what (an HMAC). Worlds are alike to the bit, and
 * no rule of the game looks at a command's time. */
#ifndef TSYNC_PEER_H
#define TSYNC_PEER_H

#include <stddef.h>
#include <stdint.h>

#ifdef __cplusplus
extern "C" {
#endif

typedef struct { void *engine; uint32_t live; } tsync_peer;
#define TSYNC_PEER_HANDLE { 0, 0 }

/* kinds of answer */
enum {
    TSYNC_PEER_MOVED = 0,          /* the clock went on by one tick; value: how many copies were repaired, from copy 0 on */
    TSYNC_PEER_OVER = 1,           /* the clock stands at the session's last tick; value as above */
    TSYNC_PEER_TAKEN = 2,          /* the own command was issued and accepted; value: its number; other: the tick it is due at */
    TSYNC_PEER_RAN = 3,            /* the copy ran a tick; value: how many copies were repaired, from copy 0 on */
    TSYNC_PEER_IDLE = 4,           /* the copy stands at its limit */
    TSYNC_PEER_RESTAGGERED = 5,    /* another plan is in force */
    TSYNC_PEER_VALUE = 6,          /* value: what was asked */
    TSYNC_PEER_MADE = 7,           /* the peer was made */
    TSYNC_PEER_HEARD = 8,          /* the packet was heard; value: how many copies were repaired, from copy 0 on; other: from whom */
    TSYNC_PEER_MARKED = 9,         /* value: the tick; other: how many peers' newest marks have this tick and another sum */
    TSYNC_PEER_NO_PEER = 16,       /* the handle holds no peer */
    TSYNC_PEER_NOT_THERE = 17,     /* no such slot, copy, plan, place or remembered command */
    TSYNC_PEER_FAR = 18,           /* due at the window's end, value, or later */
    TSYNC_PEER_FULL = 19,          /* no room for another command of this slot */
    TSYNC_PEER_NOT_LEGAL = 20,     /* the config is out of range */
    TSYNC_PEER_NO_MEMORY = 21,     /* memory ran out */
    TSYNC_PEER_TOO_LONG = 22,      /* the payload is longer than the config's */
    TSYNC_PEER_BEHIND = 23,        /* a joiner's clock hasn't reached the one of its snapshot, value */
    TSYNC_PEER_END = 24,           /* due at 2^32 - 1 or later, which no copy comes to end, or no number is left */
    TSYNC_PEER_SHORT = 25,         /* the buffer is shorter than value bytes */
    TSYNC_PEER_MALFORMED = 26,     /* no packet or snapshot; value: the field, as below */
    TSYNC_PEER_OTHER_SESSION = 27, /* of another session, or a snapshot of other slots or payload */
    TSYNC_PEER_NOT_FOR_ME = 28,    /* a packet to another peer */
    TSYNC_PEER_AHEAD = 29,         /* tells of more commands of this peer, or of a later clock of it, than there are */
    TSYNC_PEER_CONFLICT = 30,      /* commands of a slot, value, that don't follow those that are here: two lives on one slot */
    TSYNC_PEER_USED = 31,          /* the slot is the snapshot's maker's, or has issued commands */
    TSYNC_PEER_AGAIN = 32          /* this tick, or a later one, is marked */
};

/* where bytes are malformed */
enum {
    TSYNC_PEER_KIND = 1, TSYNC_PEER_SESSION = 2, TSYNC_PEER_ENDS = 3, TSYNC_PEER_HEAD = 4, TSYNC_PEER_VECTOR = 5, TSYNC_PEER_MARK = 6,
    TSYNC_PEER_PART = 7, TSYNC_PEER_COMMAND = 8, TSYNC_PEER_REST = 9
};

/* why not all of a packet was taken: bits */
enum {
    TSYNC_PEER_GAP = 1,            /* what is missing was forgotten by the sender, or is on its way; this peer's last copy isn't past it */
    TSYNC_PEER_STOP_FAR = 2,       /* due at the window's end or later: it comes again */
    TSYNC_PEER_STOP_FULL = 4       /* no room: it comes again */
};

typedef struct { uint32_t kind, other; uint64_t value; } tsync_peer_answer;

typedef struct {
    uint64_t session;            /* its number; drawn anew for each session */
    uint32_t window;             /* ticks that are remembered at most, to 8,192: at least the longest delay, keep and 2 */
    uint32_t keep;               /* ticks behind the last copy whose commands are remembered, 1 at least */
    uint32_t relay;              /* ticks after which a command that another peer issued is passed on; 2^32 - 1: never */
    uint32_t room;               /* commands of each slot that are remembered at once, 1 to 16,384 */
    uint8_t slots;               /* 2 to 64 */
    uint8_t payload;             /* most bytes of a command, 0 to 64 */
    uint8_t copies;              /* of each plan, 1 to 8 */
    uint8_t plans;               /* 1 to 8; the first is in force */
    uint32_t delays[64];         /* one plan after another: each rises, to 1,024 at most; the rest isn't looked at */
} tsync_peer_config;

typedef struct {
    uint64_t late;               /* commands that were turned away, also such as were forgotten everywhere */
    uint32_t from;
    uint32_t taken;
    uint32_t repaired;
    uint32_t stopped;            /* TSYNC_PEER_GAP, TSYNC_PEER_STOP_FAR, TSYNC_PEER_STOP_FULL */
    uint32_t differs;            /* 1 where the packet's mark has the tick of one of this peer's, and another sum */
    uint32_t zero;
} tsync_peer_heard;

typedef struct {
    uint32_t is_beat;            /* 1: a tick ends; the rest is 0 */
    uint32_t from, number, time;
} tsync_peer_item;

typedef struct {
    uint32_t have;               /* how many of its commands were received, of this peer's own: issued */
    uint32_t kept;               /* the first of these whose payload is remembered */
    uint32_t last;               /* the tick at which the newest of these is due, 0 where there is none */
    uint32_t late;               /* how many of these were turned away, here and at whose snapshot this peer began with */
    uint32_t heard;              /* 1 where a packet of it was heard; else the next three are 0 */
    uint32_t clock;              /* its newest clock that was heard */
    uint32_t echo;               /* what it said there of this peer's clock, 0: nothing yet */
    uint32_t at;                 /* this peer's clock at that moment */
    uint32_t marked, mark_tick, mark_sum; /* 1 and its newest mark that was heard; this peer's own newest */
    uint32_t differs, differs_tick;       /* 1 and the tick at which its mark was first seen to differ */
} tsync_peer_slot;

/* Makes the peer in slot `me` of a session that begins, its clock at 0. A peer that was there is freed once the new one
 * is made; where the call is refused, it stays. Refused: NOT_LEGAL, NO_MEMORY. */
tsync_peer_answer tsync_peer_new(tsync_peer *, const tsync_peer_config *, uint8_t me);
/* Makes the peer in slot `me`, which nobody had, of a session that is on its way: all copies stand at the snapshot's base with
 * the world that its maker's last copy had then, and nothing executed. The host makes turns, following each, until the
 * clock is the others'. Until it is the snapshot's, other answers of tsync_peer_clock, tsync_peer_own is refused. Plan 0 is in force.
 * A peer that was there is freed also where this is refused: NOT_LEGAL, MALFORMED, OTHER_SESSION, USED, FAR, FULL, NO_MEMORY. */
tsync_peer_answer tsync_peer_join(tsync_peer *, const tsync_peer_config *, uint8_t me, const uint8_t *bytes, size_t length);
/* Frees the peer, where there is one. */
void tsync_peer_free(tsync_peer *);

/* Issues a command, due `ahead` ticks behind the clock and not before the last own one. Refused: TOO_LONG, BEHIND, END, FAR, FULL. */
tsync_peer_answer tsync_peer_own(tsync_peer *, uint32_t ahead, const uint8_t *payload, size_t length);
/* A tick of the clock, and then a step of each copy from copy 0 on. The host follows before it makes another call than looks. */
tsync_peer_answer tsync_peer_turn(tsync_peer *);
/* A step of a copy, where it may: copies reach a shorter plan by these. The host follows. Refused: NOT_THERE. */
tsync_peer_answer tsync_peer_step(tsync_peer *, uint8_t copy);
/* Another plan is in force, at this peer alone. Refused: NOT_THERE. */
tsync_peer_answer tsync_peer_restagger(tsync_peer *, uint8_t plan);
/* Puts a packet for peer `to` into out. value: its length; other: 1 where not all that is due for it is in it: then the next
 * packet for it goes on behind this one, and begins anew behind the last. Refused: NOT_THERE, SHORT where not even the head fits. */
tsync_peer_answer tsync_peer_packet(tsync_peer *, uint8_t to, uint8_t *out, size_t room);
/* A packet came. What came of it is put into heard, which is all zeroes where it is refused: MALFORMED, OTHER_SESSION,
 * NOT_FOR_ME, AHEAD, CONFLICT. The host follows. */
tsync_peer_answer tsync_peer_hear(tsync_peer *, const uint8_t *bytes, size_t length, tsync_peer_heard *heard);
/* The sum of the last copy's world, at its clock: all hosts give it at the same ticks, say those that 64 divides. Refused: AGAIN. */
tsync_peer_answer tsync_peer_mark(tsync_peer *, uint32_t sum);

/* Looks, which change nothing. */

/* Puts what a joiner needs beside the last copy's world into out. Refused: SHORT. */
tsync_peer_answer tsync_peer_snapshot(tsync_peer *, uint8_t *out, size_t room);
/* value: the clock; other: the clock from which own commands are taken. */
tsync_peer_answer tsync_peer_clock(tsync_peer *);
/* value: the first place of each run that is remembered; other: the tick at which it stands. */
tsync_peer_answer tsync_peer_base(tsync_peer *);
/* value: a copy's clock. Refused: NOT_THERE. */
tsync_peer_answer tsync_peer_copy_clock(tsync_peer *, uint8_t copy);
/* value: how many items a copy has run, counted from where this peer began. Refused: NOT_THERE. */
tsync_peer_answer tsync_peer_run_len(tsync_peer *, uint8_t copy);
/* Puts the items of a copy's run from a place on into out, as many as there are and fit; value: how many. Refused: NOT_THERE, also
 * where the place is forgotten or past the run's end. */
tsync_peer_answer tsync_peer_items(tsync_peer *, uint8_t copy, uint64_t place, tsync_peer_item *out, size_t room);
/* Puts the payload of a remembered command into out; value: its length. Refused: NOT_THERE, SHORT. */
tsync_peer_answer tsync_peer_payload(tsync_peer *, uint8_t from, uint32_t number, uint8_t *out, size_t room);
/* What is known of a slot. Where heard is 1 and echo isn't 0, at - echo is the round trip in ticks, and half of
 * (at - clock) - (clock - echo) by how many ticks this peer's clock is ahead of that one's: a host that is ahead of all makes
 * its ticks a little longer, and one that is behind a little shorter. Refused, out as it was: NOT_THERE. */
tsync_peer_answer tsync_peer_slot_of(tsync_peer *, uint8_t slot, tsync_peer_slot *out);
/* value: how many commands of slot `of` slot `who` is known to have received. Refused: NOT_THERE. */
tsync_peer_answer tsync_peer_known(tsync_peer *, uint8_t who, uint8_t of);

/* What a host does: at once after tsync_peer_turn and tsync_peer_step; after tsync_peer_own and tsync_peer_hear at the latest before the
 * next turn or step, then once, by the greatest of their numbers. `repaired` is the answer's value where the kind is MOVED, OVER, RAN
 * or HEARD, and else 0. From the last copy to copy 0, a repaired one is set from the copy behind it, and each executes what it
 * has not run. executed[k] is how many items world k has executed, 0 at first. Answers 0, or 1 where something that it needs was
 * forgotten, since it wasn't called in time. */
typedef struct {
    void *host;
    void (*set)(void *host, uint8_t copy, uint8_t from_copy);
    void (*execute)(void *host, uint8_t copy, const tsync_peer_item *item, const uint8_t *payload, size_t length);
} tsync_peer_worlds;

static inline int tsync_peer_follow(tsync_peer *p, uint8_t copies, uint64_t repaired, uint64_t *executed, const tsync_peer_worlds *w) {
    for (int k = copies - 1; k >= 0; k--) {
        tsync_peer_item items[64];
        uint8_t payload[64];
        if ((uint64_t)k < repaired) {
            w->set(w->host, (uint8_t)k, (uint8_t)(k + 1));
            executed[k] = executed[k + 1];
        }
        for (;;) {
            tsync_peer_answer a = tsync_peer_items(p, (uint8_t)k, executed[k], items, 64);
            if (a.kind != TSYNC_PEER_VALUE) return 1;
            if (a.value == 0) break;
            for (uint64_t i = 0; i < a.value; i++) {
                size_t length = 0;
                if (!items[i].is_beat) {
                    tsync_peer_answer b = tsync_peer_payload(p, (uint8_t)items[i].from, items[i].number, payload, 64);
                    if (b.kind != TSYNC_PEER_VALUE) return 1;
                    length = (size_t)b.value;
                }
                w->execute(w->host, (uint8_t)k, &items[i], payload, length);
                executed[k]++;
            }
        }
    }
    return 0;
}

#ifdef __cplusplus
}
#endif
#endif

/* A session of peers over UDP on this machine, one process for each: a small game of one's own.
 *
 *     peers PORT SLOTS ME TICKS LOSS [join]
 *
 * Process ME, 0 to SLOTS - 1, listens at PORT + ME, loses LOSS of 100 datagrams that come, and plays TICKS ticks of 2 ms. With
 * `join` it joins a session that is on its way, by slot 0. At the end it prints its last copy's world at tick TICKS:
 *
 *     peer 1 world 9c04f1d2 at tick 2000, late 0, rollbacks 312
 *
 * The session's number is PORT here; who plays over a real net draws one for each session, and proves who sent what. */
#define _GNU_SOURCE
#include <arpa/inet.h>
#include <stdio.h>
#include <stdlib.h>
#include <string.h>
#include <sys/socket.h>
#include <time.h>
#include <unistd.h>

#include "tsync_peer.h"

enum { COPIES = 3, LAST = COPIES - 1, DELAY = 90, ROOM = 60000, TICK_NS = 2000000 };

/* the game: what each command did, mixed in order, so that two orders hardly ever show one world */
typedef struct { uint32_t tick, sum; int32_t places[64]; } world;

typedef struct {
    world worlds[COPIES];
    uint64_t executed[COPIES], rollbacks;
    uint32_t until, shown;
} game;

static void set(void *host, uint8_t copy, uint8_t from) {
    game *g = host;
    g->worlds[copy] = g->worlds[from];
    g->rollbacks++;
}

static void execute(void *host, uint8_t copy, const tsync_peer_item *item, const uint8_t *payload, size_t length) {
    game *g = host;
    world *w = &g->worlds[copy];
    if (item->is_beat) {
        w->tick++;
        if (copy == LAST && w->tick == g->until) g->shown = w->sum;
        return;
    }
    w->places[item->from] += length > 0 ? payload[0] % 3 - 1 : 0;
    w->sum = (w->sum ^ (item->from + 1) ^ (uint32_t)w->places[item->from]) * 16777619u + item->number;
}

typedef struct {
    tsync_peer peer;
    tsync_peer_worlds worlds;
    game game;
    int socket, port, slots, me, loss;
    uint64_t repaired, late; /* since the host followed last, and in all */
} host;

static void fail(const char *what) {
    fprintf(stderr, "peers: %s\n", what);
    exit(1);
}

static void send_to(host *h, int to, const uint8_t *bytes, size_t length) {
    struct sockaddr_in at = {.sin_family = AF_INET, .sin_port = htons((uint16_t)(h->port + to)), .sin_addr.s_addr = htonl(INADDR_LOOPBACK)};
    (void)!sendto(h->socket, bytes, length, 0, (struct sockaddr *)&at, sizeof at);
}

static void follow(host *h) {
    if (tsync_peer_follow(&h->peer, COPIES, h->repaired, h->game.executed, &h->worlds)) fail("something that is needed was forgotten");
    h->repaired = 0;
}

/* a joiner asked: the last copy's world, and behind it the snapshot */
static void hand_over(host *h, int to) {
    static uint8_t out[1 + sizeof(world) + ROOM];
    follow(h);
    out[0] = 'S';
    memcpy(out + 1, &h->game.worlds[LAST], sizeof(world));
    tsync_peer_answer a = tsync_peer_snapshot(&h->peer, out + 1 + sizeof(world), ROOM);
    if (a.kind == TSYNC_PEER_VALUE) send_to(h, to, out, 1 + sizeof(world) + (size_t)a.value);
}

static void hear(host *h, const uint8_t *bytes, size_t length) {
    tsync_peer_heard heard;
    tsync_peer_answer a = tsync_peer_hear(&h->peer, bytes, length, &heard);
    if (a.kind != TSYNC_PEER_HEARD) return; /* not of this session, say: nothing changed */
    h->late += heard.late;
    if (a.value > h->repaired) h->repaired = a.value;
}

static ssize_t receive(host *h, uint8_t *bytes, size_t room) {
    return recv(h->socket, bytes, room, MSG_DONTWAIT);
}

/* all that came: packets, of which some are lost, and whoever wants to join */
static void hear_all(host *h) {
    static uint8_t bytes[65536];
    for (ssize_t n; (n = receive(h, bytes, sizeof bytes)) > 0;) {
        if (bytes[0] == 'J' && n == 2 && h->me == 0) hand_over(h, bytes[1]);
        else if (bytes[0] == 'P' && rand() % 100 >= h->loss) hear(h, bytes + 1, (size_t)n - 1);
    }
}

/* a packet for each other peer, and once more where not all was in it */
static void send_all(host *h) {
    uint8_t bytes[1200];
    bytes[0] = 'P';
    for (int to = 0; to < h->slots; to++) {
        for (int i = 0; i < 3; i++) {
            tsync_peer_answer a = tsync_peer_packet(&h->peer, (uint8_t)to, bytes + 1, sizeof bytes - 1);
            if (a.kind != TSYNC_PEER_VALUE) break;
            send_to(h, to, bytes, 1 + (size_t)a.value);
            if (a.other == 0) break;
        }
    }
}

static void turn(host *h) {
    follow(h);
    tsync_peer_answer a = tsync_peer_turn(&h->peer);
    h->repaired = a.value;
    follow(h);
}

/* by how many ticks this peer is behind the one that is furthest ahead, and where that is negative, ahead of all */
static long behind(host *h) {
    long most = -1000000;
    for (int k = 0; k < h->slots; k++) {
        tsync_peer_slot s;
        if (k == h->me || tsync_peer_slot_of(&h->peer, (uint8_t)k, &s).kind != TSYNC_PEER_VALUE || !s.heard || !s.echo) continue;
        if (tsync_peer_clock(&h->peer).value > s.at + 500) continue; /* nothing came of it for a second: it is gone */
        long ahead = (((long)s.at - (long)s.clock) - ((long)s.clock - (long)s.echo)) / 2;
        if (-ahead > most) most = -ahead;
    }
    return most;
}

static void join(host *h, const tsync_peer_config *config) {
    static uint8_t bytes[65536];
    const uint8_t ask[2] = {'J', (uint8_t)h->me};
    for (int tries = 0; tries < 500; tries++) {
        send_to(h, 0, ask, sizeof ask);
        usleep(10000);
        for (ssize_t n; (n = receive(h, bytes, sizeof bytes)) > 0;) {
            if (bytes[0] != 'S' || (size_t)n < 1 + sizeof(world)) continue;
            if (tsync_peer_join(&h->peer, config, (uint8_t)h->me, bytes + 1 + sizeof(world), (size_t)n - 1 - sizeof(world)).kind != TSYNC_PEER_MADE) fail("no joiner");
            for (int c = 0; c < COPIES; c++) memcpy(&h->game.worlds[c], bytes + 1, sizeof(world));
            for (;;) { /* level with the snapshot's maker */
                tsync_peer_answer a = tsync_peer_clock(&h->peer);
                if (a.value >= a.other) return;
                turn(h);
            }
        }
    }
    fail("nobody answered");
}

static void wait_until(struct timespec *at, long ns) {
    at->tv_nsec += ns;
    while (at->tv_nsec >= 1000000000) { at->tv_nsec -= 1000000000; at->tv_sec++; }
    clock_nanosleep(CLOCK_MONOTONIC, TIMER_ABSTIME, at, NULL);
}

/* ticks until the last copy has run the game, and half a second more for the others */
static void play(host *h) {
    struct timespec at;
    clock_gettime(CLOCK_MONOTONIC, &at);
    for (uint64_t clock = tsync_peer_clock(&h->peer).value; clock < (uint64_t)h->game.until + DELAY + 250; clock = tsync_peer_clock(&h->peer).value) {
        hear_all(h);
        uint8_t act = (uint8_t)rand();
        if (clock + 2 < h->game.until && rand() % 4 == 0) tsync_peer_own(&h->peer, 1, &act, 1);
        turn(h);
        send_all(h);
        long far = behind(h);
        wait_until(&at, far > 1 ? TICK_NS / 2 : far < -1 && far > -1000 ? TICK_NS + TICK_NS / 4 : TICK_NS);
    }
}

int main(int count, char **words) {
    if (count < 6) fail("usage: peers PORT SLOTS ME TICKS LOSS [join]");
    static host h;
    h = (host){.peer = TSYNC_PEER_HANDLE, .port = atoi(words[1]), .slots = atoi(words[2]), .me = atoi(words[3]), .loss = atoi(words[5])};
    h.game.until = (uint32_t)atoi(words[4]);
    h.worlds = (tsync_peer_worlds){&h.game, set, execute};
    srand((unsigned)(h.port + h.me));
    h.socket = socket(AF_INET, SOCK_DGRAM, 0);
    struct sockaddr_in at = {.sin_family = AF_INET, .sin_port = htons((uint16_t)(h.port + h.me)), .sin_addr.s_addr = htonl(INADDR_LOOPBACK)};
    if (h.socket < 0 || bind(h.socket, (struct sockaddr *)&at, sizeof at)) fail("the port is taken");
    const tsync_peer_config config = {.session = (uint64_t)h.port, .window = 512, .keep = 128, .relay = 30, .room = 512, .slots = (uint8_t)h.slots,
                                      .payload = 1, .copies = COPIES, .plans = 1, .delays = {0, 10, DELAY}};
    if (count > 6) join(&h, &config);
    else if (tsync_peer_new(&h.peer, &config, (uint8_t)h.me).kind != TSYNC_PEER_MADE) fail("no peer");
    play(&h);
    printf("peer %d world %08x at tick %u, late %llu, rollbacks %llu\n", h.me, h.game.shown, h.game.until, (unsigned long long)h.late, (unsigned long long)h.game.rollbacks);
    tsync_peer_free(&h.peer);
    return 0;
}

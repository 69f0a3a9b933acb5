/* What a call of a peer costs: K peers in one process, TICKS ticks, each of which issues a command in each fourth tick, and sends
 * each other one a packet in each tick.
 *
 *     peer_bench K TICKS
 *
 * Told are nanoseconds a call, the mean of all, and bytes that one peer sends in a tick. */
#include <stdio.h>
#include <stdlib.h>
#include <time.h>

#include "tsync_peer.h"

enum { OWN, TURN, PACKET, HEAR, KINDS };

static const char *const names[KINDS] = {"own", "turn", "packet", "hear"};
static double spent[KINDS];
static long calls[KINDS];

static double now(void) {
    struct timespec t;
    clock_gettime(CLOCK_MONOTONIC, &t);
    return (double)t.tv_sec * 1e9 + (double)t.tv_nsec;
}

static void count(int kind, double since) {
    spent[kind] += now() - since;
    calls[kind]++;
}

int main(int n, char **words) {
    int peers = n > 1 ? atoi(words[1]) : 4;
    long ticks = n > 2 ? atol(words[2]) : 100000, bytes = 0;
    if (peers < 2 || peers > 64) return 1;
    tsync_peer_config config = {.session = 1, .window = 256, .keep = 64, .relay = 30, .room = 256, .slots = (uint8_t)peers, .payload = 8,
                                .copies = 3, .plans = 1, .delays = {0, 10, 60}};
    static tsync_peer all[64];
    for (int k = 0; k < peers; k++)
        if (tsync_peer_new(&all[k], &config, (uint8_t)k).kind != TSYNC_PEER_MADE) return 1;
    for (long t = 0; t < ticks; t++) {
        for (int k = 0; k < peers; k++) {
            double since = now();
            if (t % 4 == k % 4) { tsync_peer_own(&all[k], 2, (const uint8_t *)"12345678", 8); count(OWN, since); }
            since = now();
            tsync_peer_turn(&all[k]);
            count(TURN, since);
        }
        for (int k = 0; k < peers; k++)
            for (int to = 0; to < peers; to++) {
                if (to == k) continue;
                uint8_t out[1200];
                tsync_peer_heard heard;
                double since = now();
                tsync_peer_answer a = tsync_peer_packet(&all[k], (uint8_t)to, out, sizeof out);
                count(PACKET, since);
                bytes += (long)a.value;
                since = now();
                if (tsync_peer_hear(&all[to], out, (size_t)a.value, &heard).kind != TSYNC_PEER_HEARD) return 1;
                count(HEAR, since);
            }
    }
    for (int i = 0; i < KINDS; i++) printf("%s %.0f ns\n", names[i], calls[i] ? spent[i] / (double)calls[i] : 0.0);
    printf("%.0f bytes a tick of one peer\n", (double)bytes / (double)ticks / peers);
    for (int k = 0; k < peers; k++) tsync_peer_free(&all[k]);
    return 0;
}

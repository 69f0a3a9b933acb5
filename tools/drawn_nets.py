"""Games over three kinds of net, drawn from a seed, for who has no trace yet: each command's ways to the other mirrors.

A tick is 50 ms. The way from one mirror to another has a shortest lag of its own, drawn once for a game; each command is issued somewhere
in its tick, and waits on the way for a while more, drawn anew (exponentially, with the net's mean), now and then for much longer. What is
lost is sent again after the way there and back and two ticks, until it comes.
"""

import random
from collections import namedtuple

# shortest: from and to, in ticks. wait: the mean of what a command waits more. long: how many of 100 wait up to so many ticks more.
# lost: how many of 100 are lost each time that they are sent.
Net = namedtuple("Net", "shortest wait long lost")

NETS = {"lan": Net((0.01, 0.02), 0.02, (0, 0), 0),
        "home": Net((1, 2), 0.7, (1, 10), 1),
        "far": Net((3, 6), 2.0, (2, 40), 2)}
MIRRORS, PLAYERS, TICKS, ACTS_OF_100 = 4, 8, 600, 12
ACTS = ("go", "go", "go", "left", "right", "shoot")

Row = namedtuple("Row", "tick mirror player act arrivals again")


def rows_of(name, seed):
    """The commands of a game over the net of this name."""
    net, draw = NETS[name], random.Random(f"{name} {seed}")
    shortest = {(i, j): draw.uniform(*net.shortest) for i in range(MIRRORS) for j in range(MIRRORS)}
    return [row_of(net, draw, shortest, tick, player) for tick in range(TICKS) for player in range(PLAYERS) if draw.randrange(100) < ACTS_OF_100]


def row_of(net, draw, shortest, tick, player):
    mirror, arrivals, again = player % MIRRORS, [], 0
    for other in range(MIRRORS):
        lag, lost = (0, 0) if other == mirror else way(net, draw, shortest[mirror, other])
        arrivals.append(tick + lag)
        again += lost
    return Row(tick, mirror, f"p{player}", draw.choice(ACTS), arrivals, again)


def way(net, draw, shortest):
    """After how many whole ticks a command is at another mirror, and how often it was lost before."""
    lost = 0
    while draw.randrange(100) < net.lost:
        lost += 1
    wait = draw.expovariate(1 / net.wait)
    if draw.randrange(100) < net.long[0]:
        wait += draw.uniform(0, net.long[1])
    return int(draw.random() + shortest + wait + lost * (2 * shortest + 2)), lost

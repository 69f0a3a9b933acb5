"""A slow plain model of matches, written from docs/MODEL.md and docs/FORMATS.md: whole lists, nothing kept.

`slow_words.py` compares the built program with it. Each mirror holds a run for each copy, an event proposes runs, and settling
compares them from the last copy to the first; a world is made anew from its run each time that it is shown.
"""

STEPS = {"n": (0, -1), "e": (1, 0), "s": (0, 1), "w": (-1, 0)}
ROUND = "nesw"
BEAT = None


def turned(face, by):
    return ROUND[(ROUND.index(face) + by) % 4]


class Match:
    """A match as its text has it: players and pickups with their cells, commands as (time, from, number, player, act)."""

    def __init__(self, length, grid, mirrors, plans, pace, walls, pickups, players, commands, script, version=1):
        self.length, self.grid, self.mirrors, self.plans, self.pace = length, grid, mirrors, plans, pace
        self.walls, self.pickups, self.players = walls, pickups, players
        self.commands, self.script, self.version = commands, script, version

    def lines(self, with_script=True):
        lines = [f"tss match {self.version}", f"length {self.length}", "grid %d %d" % self.grid, f"mirrors {self.mirrors}"]
        lines += ["delays " + " ".join(map(str, self.plans[0])), f"pace {self.pace}"]
        lines += ["plan " + " ".join(map(str, plan)) for plan in self.plans[1:]]
        lines += ["wall %d %d" % wall for wall in sorted(self.walls, key=lambda cell: (cell[1], cell[0]))]
        lines += ["pickup %d %d %s" % pickup for pickup in self.pickups]
        lines += ["player %s %d %d %s" % player for player in self.players]
        lines += ["cmd %d %d %d %d %s" % command for command in self.commands]
        if with_script and self.script:
            lines += ["script"] + [" ".join(map(str, line)) for line in self.script]
        return lines + ["end"]

    def command(self, sender, number):
        return next(x for x in self.commands if x[1:3] == (sender, number))

    def is_open(self, cell):
        return 0 <= cell[0] < self.grid[0] and 0 <= cell[1] < self.grid[1] and cell not in self.walls


def score(player, gain):
    player["score"] = max(-1_000_000, min(1_000_000, player["score"] + gain))


class Arena:
    """The world of the arena at the opening, which items change."""

    def __init__(self, match):
        self.match = match
        self.players = [{"name": n, "home": (x, y, f), "score": 0, "live": [(x, y), f, 3, 5], "wait": 0} for n, x, y, f in match.players]
        self.shots = []
        self.waits = [0] * len(match.pickups)

    def standing(self, cell):
        return next((p for p in self.players if p["live"] and p["live"][0] == cell), None)

    def apply(self, command):
        player, act = command[3:]
        if player >= len(self.players) or not self.players[player]["live"]:
            return
        body = self.players[player]["live"]
        if act in ("left", "right"):
            body[1] = turned(body[1], -1 if act == "left" else 1)
        elif act == "shoot":
            if body[3] > 0 and len(self.shots) < 64:
                body[3] -= 1
                self.shots.append([player, body[0], body[1], 8])
        else:
            for _ in range(2 if act == "dash" else 1):
                self.go(self.players[player])

    def go(self, player):
        body = player["live"]
        ahead = tuple(map(sum, zip(body[0], STEPS[body[1]])))
        if not self.match.is_open(ahead) or self.standing(ahead):
            return
        body[0] = ahead
        for at, (x, y, kind) in enumerate(self.match.pickups):
            if (x, y) == ahead and self.waits[at] == 0:
                self.waits[at] = 20
                if kind == "ammo":
                    body[3] = min(9, body[3] + 4)
                elif kind == "heal":
                    body[2] = min(3, body[2] + 1)
                else:
                    score(player, 1)

    def fly(self, shot):
        """Whether the shot still flies."""
        ahead = tuple(map(sum, zip(shot[1], STEPS[shot[2]])))
        if not self.match.is_open(ahead):
            return False
        hit = self.standing(ahead)
        if hit:
            hit["live"][2] -= 1
            if hit["live"][2] == 0:
                hit["live"], hit["wait"] = None, 10
                owner = self.players[shot[0]]
                score(owner, -1 if owner is hit else 1)
            return False
        shot[1], shot[3] = ahead, shot[3] - 1
        return shot[3] > 0

    def beat(self):
        self.shots = [shot for shot in self.shots if self.fly(shot)]
        for player in self.players:
            if player["live"]:
                continue
            player["wait"] = max(0, player["wait"] - 1)
            x, y, face = player["home"]
            if player["wait"] == 0 and not self.standing((x, y)):
                player["live"] = [(x, y), face, 3, 5]
        self.waits = [max(0, wait - 1) for wait in self.waits]

    def lines(self):
        lines = []
        for p in self.players:
            if p["live"]:
                (x, y), face, health, ammo = p["live"]
                lines.append(f"live {p['name']} {x} {y} {face} {health} {ammo} {p['score']}")
            else:
                lines.append(f"dead {p['name']} {p['wait']} {p['score']}")
        lines += [f"shot {self.players[o]['name']} {c[0]} {c[1]} {f} {left}" for o, c, f, left in self.shots]
        return lines + [f"item {x} {y} {kind} {wait}" for (x, y, kind), wait in zip(self.match.pickups, self.waits)]


class Paint:
    """The world of painting at the opening, which items change."""

    def __init__(self, match):
        self.match = match
        self.players = [[n, (x, y), f] for n, x, y, f in match.players]
        self.owners = {cell: number for number, (_, cell, _) in enumerate(self.players)}

    def apply(self, command):
        number, act = command[3:]
        if number >= len(self.players):
            return
        player = self.players[number]
        if act in ("left", "right"):
            player[2] = turned(player[2], -1 if act == "left" else 1)
        elif act == "shoot":
            cell = player[1]
            for _ in range(3):
                cell = tuple(map(sum, zip(cell, STEPS[player[2]])))
                if not self.match.is_open(cell):
                    break
                self.owners[cell] = number
        else:
            for _ in range(2 if act == "dash" else 1):
                ahead = tuple(map(sum, zip(player[1], STEPS[player[2]])))
                if self.match.is_open(ahead) and all(p[1] != ahead for p in self.players):
                    player[1] = ahead
                    self.owners[ahead] = number

    def beat(self):
        for x, y, _ in self.match.pickups:
            self.owners.pop((x, y), None)

    def lines(self):
        owned = list(self.owners.values())
        lines = [f"painter {n} {x} {y} {f} {owned.count(at)}" for at, (n, (x, y), f) in enumerate(self.players)]
        letters = "abcdefghijklmnopqrstuvwxyzABCDEF"
        for y in range(self.match.grid[1]):
            cells = [(x, y) for x in range(self.match.grid[0])]
            lines.append("row " + "".join("#" if c in self.match.walls else letters[self.owners[c]] if c in self.owners else "." for c in cells))
        return lines


def beats(run):
    return run.count(BEAT)


def ordered(commands, start, end):
    items = []
    for tick in range(start, end):
        items += sorted((x for x in commands if x[0] == tick), key=lambda x: x[:3]) + [BEAT]
    return items


def world_of(opening, run):
    world = opening()
    for item in run:
        if item is BEAT:
            world.beat()
        else:
            world.apply(item)
    return world


class Mirror:
    def __init__(self, match, opening, plan=0):
        self.match, self.opening, self.plan, self.clock = match, opening, plan, 0
        self.accepted, self.turned, self.repairs = [], 0, 0
        self.runs = [[] for _ in match.plans[0]]

    def settle(self, runs):
        repaired = 0
        for c in range(len(runs) - 2, -1, -1):
            if runs[c][:len(runs[c + 1])] != runs[c + 1]:
                runs[c] = runs[c + 1] + ordered(self.accepted, beats(runs[c + 1]), beats(runs[c]))
                repaired += 1
        self.runs = runs
        self.repairs += repaired
        return repaired

    def tick(self):
        if self.clock >= self.match.length + self.match.plans[self.plan][-1]:
            return False
        self.clock += 1
        return True

    def arrive(self, x):
        """What it is answered: `repeat`, the bound of a late one, or how many copies were repaired."""
        if any(y[1:3] == x[1:3] for y in self.accepted):
            return "repeat", 0
        bound = beats(self.runs[-1])
        if x[0] < bound:
            self.turned += 1
            return "late", bound
        self.accepted.append(x)
        return "taken", self.settle([run + [x] if beats(run) > x[0] else list(run) for run in self.runs])

    def limit(self, copy):
        ahead = beats(self.runs[copy - 1]) if copy else self.match.length
        return min(self.match.length, max(0, self.clock - self.match.plans[self.plan][copy]), ahead)

    def step(self, copy):
        """How many copies were repaired, or None where the copy stands at its limit."""
        at = beats(self.runs[copy])
        if at >= self.limit(copy):
            return None
        runs = [list(run) for run in self.runs]
        runs[copy] += ordered(self.accepted, at, at + 1)
        return self.settle(runs)

    def turn(self):
        """How many copies each step repaired, where it did."""
        self.tick()
        return [r for r in (self.step(c) for c in range(len(self.runs))) if r]

    def drain(self):
        repaired = []
        while any(beats(run) < self.match.length for run in self.runs):
            repaired += self.turn()
        return repaired

    def block(self, head, copy):
        return [head] + world_of(self.opening, self.runs[copy]).lines()

    def line(self, name):
        return f"{name} accepted {len(self.accepted)} turned {self.turned} repairs {self.repairs}"


def arrival_lines(number, command, answer):
    kind, value = answer
    if kind == "taken":
        return [f"repair {number} {value}"] if value else []
    name = f"{number} {command[1]} {command[2]}"
    return [f"repeat {name}" if kind == "repeat" else f"late {name} {value}"]


def repairs_of(number, repaired):
    return [f"repair {number} {r}" for r in repaired]


def script_lines(match, mirrors, line):
    """What a script line prints, which changes its mirror."""
    word, number, rest = line[0], line[1], line[2:]
    mirror = mirrors[number]
    if word == "tick":
        return [] if mirror.tick() else [f"over {number}"]
    if word == "turn":
        return repairs_of(number, mirror.turn())
    if word == "arrive":
        command = match.command(*rest)
        return arrival_lines(number, command, mirror.arrive(command))
    if word == "step":
        repaired = mirror.step(rest[0])
        return [f"idle {number} {rest[0]}"] if repaired is None else repairs_of(number, [repaired] if repaired else [])
    if word == "restagger":
        mirror.plan = rest[0]
        return []
    run = mirror.runs[rest[0]]
    if word == "world":
        return mirror.block(f"world {number} {rest[0]} {beats(run)}", rest[0])
    return [f"run {number} {rest[0]}:" + "".join(" |" if item is BEAT else f" {item[1]}.{item[2]}" for item in run)]


def ends(match, mirrors):
    lines = [line for number, mirror in enumerate(mirrors) for line in repairs_of(number, mirror.drain())]
    for number, mirror in enumerate(mirrors):
        lines.append(mirror.line(f"mirror {number}"))
        for copy in range(len(mirror.runs)):
            lines += mirror.block(f"world {number} {copy} {match.length}", copy)
    return lines + ["done"]


def order(match, opening):
    run = ordered(match.commands, 0, match.length)
    return [f"order {match.length}"] + world_of(opening, run).lines() + ["done"]


def play(match, opening):
    mirrors = [Mirror(match, opening) for _ in range(match.mirrors)]
    lines = [printed for line in match.script for printed in script_lines(match, mirrors, line)]
    return lines + ends(match, mirrors)


def rewind(match, room, ticks):
    lines, kept, hits = [], [], 0
    for tick in ticks:
        lines += [f"at {tick}"] + world_of(lambda: Arena(match), ordered(match.commands, 0, tick)).lines()
        if tick in kept:
            hits += 1
            kept.remove(tick)
        elif len(kept) == room:
            kept.pop()
        kept.insert(0, tick)
    return lines + [f"hits {hits}", "done"]


class Link:
    def __init__(self):
        self.sent, self.received, self.acked, self.packets, self.counts = [], [], 0, set(), set()


def lossy(match, net):
    opening = lambda: Arena(match)
    mirrors = [Mirror(match, opening) for _ in range(match.mirrors)]
    links = {(f, t): Link() for f in range(match.mirrors) for t in range(match.mirrors) if f != t}
    issued = set()

    def arrives(number, command):
        return arrival_lines(number, command, mirrors[number].arrive(command))

    def carry(f, t, k):
        link = links[f, t]
        if k not in link.packets:
            return ["nothing"]
        if k != len(link.received):
            return [f"drop {f} {t} {k}"]
        link.received.append(link.sent[k])
        return arrives(t, link.sent[k])

    def made(word, *given):
        if word == "turn":
            return repairs_of(given[0], mirrors[given[0]].turn())
        if word == "issue":
            if given in issued:
                return ["again %d %d" % given]
            issued.add(given)
            command = match.command(*given)
            for t in range(match.mirrors):
                if t != given[0]:
                    links[given[0], t].sent.append(command)
            return arrives(given[0], command)
        link = links[given[:2]]
        if word == "ack":
            link.counts.add(len(link.received))
            return []
        k = given[2]
        if word == "send":
            if not link.acked <= k < len(link.sent):
                return ["nothing"]
            link.packets.add(k)
            return []
        if word == "hear":
            if k not in link.counts:
                return ["nothing"]
            link.acked = max(link.acked, k)
            return []
        return carry(*given)

    lines = [printed for line in net for printed in made(*line)]
    for (f, t), link in sorted(links.items()):
        for k in range(len(link.received), len(link.sent)):
            link.packets.add(k)
            lines += carry(f, t, k)
    return lines + ends(match, mirrors)


def join(match, number, first):
    """The status and the lines of a mirror and one that joins late from it."""
    opening = lambda: Arena(match)
    mirror = Mirror(match, opening)
    for line in match.script[:first]:
        if line[1] == number:
            script_lines(match, {number: mirror}, line)
    start = beats(mirror.runs[-1])
    if start == match.length:
        return 7, [f"too late {start} {match.length}"]
    # The joiner is a mirror whose copies all have run the match up to its start: what they ran is what was passed on.
    passed = [x for x in mirror.accepted if x[0] < start]
    late = Joiner(match, opening, mirror, passed, start)
    lines = [f"join {number} {first} clock {start}"]
    for line in match.script[first:]:
        if line[1] == number:
            script_lines(match, {number: mirror}, line)
            lines += late.along(line)
    mirror.drain()
    late.mirror.drain()
    last = len(mirror.runs) - 1
    block = mirror.block(f"world {number} {last} {match.length}", last)
    other = [f"world joiner {match.length}"] + late.world().lines()
    same = "yes" if vars_of(world_of(opening, mirror.runs[last])) == vars_of(late.world()) else "no"
    lines += [mirror.line(f"mirror {number}")] + block + [late.mirror.line("joiner")] + other
    return 0, lines + [f"same {same}", "done"]


def vars_of(world):
    return {key: value for key, value in vars(world).items() if key != "match"}


class Joiner:
    def __init__(self, match, opening, mirror, passed, start):
        self.match, self.opening, self.passed, self.start = match, opening, passed, start
        rest = Match(match.length - start, match.grid, 1, match.plans, 0, match.walls, match.pickups, match.players, [], [])
        self.mirror = Mirror(rest, None, mirror.plan)
        for x in mirror.accepted:
            if x[0] >= start:
                self.mirror.arrive(self.earlier(x))

    def earlier(self, x):
        return (x[0] - self.start,) + x[1:]

    def world(self):
        run = [item if item is BEAT else (item[0] + self.start,) + item[1:] for item in self.mirror.runs[-1]]
        return world_of(self.opening, ordered(self.passed, 0, self.start) + run)

    def along(self, line):
        if line[0] in ("world", "run"):
            return []
        if line[0] != "arrive":
            script_lines(self.match, {line[1]: self.mirror}, line)
            return []
        x = self.match.command(*line[2:])
        name = f"{x[1]} {x[2]}"
        if any(y[1:3] == x[1:3] for y in self.passed + self.mirror.accepted):
            return [f"repeat {name}"]
        if x[0] < self.start:
            return [f"before {name} {x[0]} {self.start}"]
        kind, value = self.mirror.arrive(self.earlier(x))
        return [f"late {name} {value + self.start}"] if kind == "late" else []

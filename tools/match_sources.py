"""What a page can show: a match, the record of a race, a race that is run now, or a lossy net; each as a match and the lines to go
through, with the script line that each of them is at its mirror, if it is one."""

from match_lines import MatchText, Wrong, run, said_by, start


class Shown:
    """A match without a script, and what is gone through: pairs of what is shown and the script line that it is, or None."""

    def __init__(self, match, lines):
        self.match, self.lines = match, lines


def source_of(path, program, race):
    """The file is told by its first line."""
    try:
        with open(path, "rb") as file:
            text = file.read()
    except OSError as fault:
        raise Wrong(f"{path}: {fault.strerror}")
    head = text.split(b"\n", 1)[0]
    if race:
        MatchText.read(path, program)
        return of_record("\n".join(run(program, "race", text)).split("\n"))
    if head == b"tss record 1":
        checked(path, program, "audit", text)
        return of_record(text.decode("ascii").split("\n")[:-1])
    if head == b"tss lossy 1":
        checked(path, program, "lossy", text)
        return of_net(text.decode("ascii").split("\n")[:-1])
    return of_match(MatchText.read(path, program))


def checked(path, program, word, text):
    done = start(program, [word], text)
    if done.returncode != 0:
        raise Wrong(f"{path}: {said_by(done)}")


def of_match(match):
    lines = [(line, line) for line in match.script if line.split(" ", 1)[0] not in ("world", "run")]
    match.script = []
    return Shown(match, lines)


def setup_in(lines):
    """The match inside a longer text, and the lines behind it."""
    end = lines.index("end")
    match = MatchText(lines[1:end + 1])
    match.script = []
    return match, lines[end + 1:]


def of_record(lines):
    """Each mirror's own order is the log's; between mirrors, whose order isn't recorded, they go tick by tick."""
    match, rest = setup_in(lines)
    logs = [[] for _ in range(match.numbers("mirrors")[0])]
    at = 0
    while at < len(rest):
        words = rest[at].split(" ")
        if words[0] == "log":
            logs[int(words[1])] = rest[at + 1:at + 1 + int(words[2])]
            at += int(words[2])
        at += 1
    return Shown(match, [(line, line) for line in tick_by_tick(logs)])


def tick_by_tick(logs):
    """The events of all logs as script lines: each mirror up to its next tick, and then the next mirror."""
    places, lines = [0] * len(logs), []
    while any(place < len(log) for place, log in zip(places, logs)):
        for mirror, log in enumerate(logs):
            first = places[mirror]
            while places[mirror] < len(log) and (places[mirror] == first or log[places[mirror]] != "tick"):
                word, *rest = log[places[mirror]].split(" ")
                lines.append(" ".join([word, str(mirror), *rest]))
                places[mirror] += 1
    return lines


def of_net(lines):
    """A packet that is the next of its link arrives; what else the net does changes no mirror."""
    match, rest = setup_in(lines)
    mirrors = match.numbers("mirrors")[0]
    sent = {(f, t): [] for f in range(mirrors) for t in range(mirrors) if f != t}
    received, flown, issued, shown = dict.fromkeys(sent, 0), set(), set(), []
    for line in rest[1:-1]:
        word, *given = line.split(" ")
        given, event = tuple(map(int, given)), None
        if word == "turn":
            event = line
        elif word == "issue" and given not in issued:
            issued.add(given)
            for link in sent:
                if link[0] == given[0]:
                    sent[link].append(given)
            event = "arrive %d %d %d" % (given[0], *given)
        elif word == "send" and given[2] < len(sent[given[:2]]):
            flown.add(given)
        elif word == "carry" and given in flown and given[2] == received[given[:2]]:
            event = "arrive %d %d %d" % (given[1], *sent[given[:2]][given[2]])
            received[given[:2]] += 1
        shown.append((line, event))
    return Shown(match, shown)

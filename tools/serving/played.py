"""What was played: what each mirror told at its end, all commands, whether all is right, and what is kept of it."""

from match_lines import MatchText, start

from .journal import write_lines


def name_in(command):
    words = command.split(" ")
    return int(words[1]), int(words[2])


def counted(commands):
    return f"{len(commands)} command{'s' * (len(commands) != 1)}, the first 'cmd {commands[0]}'"


def those(numbers):
    return f"mirror {numbers[0]} is" if len(numbers) == 1 else f"mirrors {', '.join(map(str, numbers))} are"


def log_of(told):
    """From the `log` line on what a record has of a mirror."""
    return told[next(at for at, line in enumerate(told) if line.startswith("log ")):]


def arrivals(told, times, last):
    """The names that arrived at a mirror, and those that it turned away: their time was behind the clock of the last copy."""
    arrived, late, clock = set(), set(), 0
    for words in (line.split(" ") for line in log_of(told)):
        if words[0] == "step":
            clock += int(words[1]) == last
        elif words[0] == "arrive":
            name = int(words[1]), int(words[2])
            arrived.add(name)
            late |= {name} if times.get(name, clock) < clock else set()
    return arrived, late


class Played:
    """What was played at all mirrors: their logs, all commands, and the script of what happened."""

    def __init__(self, match, told, commands, script):
        self.match, self.told, self.script = match, told, script
        named, self.doubled = {}, []
        for command in commands:
            if named.setdefault(name_in(command), command) != command:
                self.doubled.append(f"'cmd {named[name_in(command)]}' and 'cmd {command}' have one name")
        self.commands = [named[name] for name in sorted(named)]

    @staticmethod
    def of(session, told):
        rooms = session.rooms.values()
        entries = sorted(entry for room in rooms for entry in room.script)
        return Played(session.match, told, [command for room in rooms for command in room.commands.values()], [line for _, line in entries])

    def missing(self):
        return sorted(set(range(self.match.numbers("mirrors")[0])) - set(self.told))

    def match_lines(self):
        return self.match.setup + [f"cmd {command}" for command in self.commands] + ["end"]

    def script_lines(self):
        return self.match_lines()[:-1] + (["script"] + self.script if self.script else []) + ["end"]

    def record_lines(self):
        lines = ["tss record 1"] + self.match_lines()
        for _, told in sorted(self.told.items()):
            lines += log_of(told)
        return lines + ["done"]

    def last_worlds(self):
        """The block of each mirror's last copy, without its head."""
        return {number: told[max(at for at, line in enumerate(told) if line.startswith("world ")) + 1:] for number, told in self.told.items()}

    def reasons(self):
        """Which commands which mirror lacks or turned away, by the logs."""
        times, last = {name_in(command): int(command.split(" ")[0]) for command in self.commands}, len(self.match.numbers("delays")) - 1
        found = self.doubled[:3]
        for number, told in sorted(self.told.items()):
            arrived, late = arrivals(told, times, last)
            lacks = [command for command in self.commands if name_in(command) not in arrived]
            turned = [command for command in self.commands if name_in(command) in late]
            found += [f"mirror {number} lacks {counted(lacks)}"] if lacks else []
            found += [f"mirror {number} turned away {counted(turned)}"] if turned else []
        return "; ".join(found) or "its logs don't say why"

    def verdict(self, tss):
        """One line on what was played, and whether all is as it should be."""
        missing = self.missing()
        gone = f"; {those(missing)} not there, so there is no record" if missing else ""
        if not self.told:
            return f"no mirror is there{gone}; {len(self.commands)} commands", False
        one, said = self.compared(tss)
        audit = "" if missing else self.answer(tss, "audit", self.record_lines())[0]
        record = gone or f"; the record is {audit or 'not audited'}"
        return f"{said}; {len(self.commands)} commands{record}", one and audit.startswith("legal ")

    def compared(self, tss):
        worlds, ordered = list(self.last_worlds().values()), self.answer(tss, "order", self.match_lines())[1:-2]
        who = f"{len(worlds)} mirrors end" if len(worlds) > 1 else "1 mirror ends"
        if any(world != worlds[0] for world in worlds):
            return False, f"{who} at different worlds: {self.reasons()}"
        if worlds[0] != ordered:
            return True, f"{who} at one world, other than `tss order` has it: {self.reasons()}"
        return True, f"{who} at one world, as `tss order` has it"

    def answer(self, tss, word, lines):
        return start(tss, [word], "".join(line + "\n" for line in lines).encode("ascii")).stdout.decode("ascii", "replace").split("\n")

    def write(self, folder):
        """Of mirrors that aren't all there no record is made; what each other told is kept."""
        if not self.missing():
            write_lines(folder, "played.record", self.record_lines())
        else:
            for number, told in self.told.items():
                write_lines(folder, f"mirror{number}.told", told)
        write_lines(folder, "played.match", self.script_lines())
        write_lines(folder, "commands.match", self.match_lines())


def setup_of(path, tss):
    """The match without its commands and its script."""
    match = MatchText.read(path, tss)
    match.setup = [line for line in match.setup if not line.startswith("cmd ")]
    match.script = []
    return match

"""A broker of messages (MQTT) in place of links, for whoever has one: Eclipse Mosquitto, say.

All topics begin with `tss/NAME`, which comes of the key. A message is `DIGEST TEXT`, an HMAC of the shared key over its topic and its text, sent with
quality of service 1: the broker may bring it twice, which harms nothing.

Whoever begins says `hello M RUN NONCE MATCH` at `hello`. Mirror 0 draws the session's number and answers at `answer/RUN` by `welcome RUN NONCE
SESSION WALL`; who is in a session that can't let the other in answers `refused M NONCE WHY`. The nonce shows that no answer is an old one.
`up M RUN SESSION` stands at `up/RUN`, until a will clears it where its sender is lost. All else stands at `SESSION/..`, so nothing of another session
is ever taken: `start` with the time of tick 0, `cmd/M/N` with a command, `ended/M` with its last tick and how many commands it gave, and `has/M` once it
has all of all. These are retained, so that who was away for a while finds them, and each takes its own back at the end.
"""

import asyncio
import collections
import hashlib
import hmac
import re
import secrets
import time

from .broker_client import begun_client, refusal_of, taken_back
from .clock import now
from .links import TIME
from .log import ERROR, INFO, WARNING
from .wire import COMMAND, Refused, hmac_of

Greeted = collections.namedtuple("Greeted", "other run is_of_match")

RUN, NONCE = "([0-9a-f]{16})", "([0-9a-f]{32})"
FORMS = {
    "hello": re.compile(f"([0-7]) {RUN} {NONCE} {NONCE}"), "welcome": re.compile(f"{RUN} {NONCE} {RUN} ({TIME})"), "refused": re.compile(f"([0-7]) {NONCE} (.{{1,200}})"),
    "up": re.compile(f"([0-7]) {RUN} {RUN}"), "start": re.compile(f"({TIME})"), "cmd": COMMAND, "ended": re.compile(r"([0-7]) (\d{1,10}) (\d{1,7})"), "has": re.compile("([0-7])"),
}
OUTSIDE = {"hello": ("hello",), "answer": ("welcome", "refused"), "up": ("up",)}
ASKED_FOR, HELLO_EACH, TAKEN_BACK_WITHIN, LONGEST = 2.0, 0.5, 5.0, 400  # seconds, and bytes of a message


class BrokerLink:
    """What a `LinkOut` is to one other mirror, to all of them by one broker. `kept` has its messages of the session, which it sends
    again whenever it was away."""

    is_shared, other, lag_ms = True, None, None

    def __init__(self, room, access, forget=None):
        self.room, self.access, self.forget, self.identity = room, access, forget, room.peers.identity
        self.name = hashlib.sha256(b"session" + self.identity.key).hexdigest()[:16]
        self.session, self.nonces, self.best, self.left, self.asked = None, {}, None, collections.defaultdict(set), None
        self.waiting, self.mids, self.kept, self.given, self.is_up, self.task = {}, {}, {}, 0, False, None
        self.others = set(range(room.mirrors)) - {room.number}
        self.came, self.counts, self.have_all, self.ups = {other: set() for other in self.others}, {}, set(), {}
        room.peers.runs[room.number], room.peers.links[room.number] = self.identity.run, 1

    def begin(self):
        self.client = begun_client(self, self.access, self.topic(f"up/{self.identity.run}"))
        self.task = asyncio.get_running_loop().create_task(self.keep_greeting())

    # ---- the broker

    def state(self, state, text, grade=INFO):
        self.room.peers.state("broker", state, text, grade, ":".join(map(str, self.access.place)))

    def up(self, code):
        if code != 0:
            return self.down(f"refused {code}", f"the broker refuses: {refusal_of(code)}", ERROR)
        self.is_up, self.asked = True, time.monotonic()
        self.state("up", "linked to the broker")
        self.client.subscribe([(self.topic(rest), 1) for rest in ("hello", f"answer/{self.identity.run}")])
        if self.session:
            self.enter(self.session)
        elif self.room.number == 0:
            self.client.subscribe([(self.topic("+/cmd/#"), 1), (self.topic("+/start"), 1)])

    def down(self, state, text, grade=WARNING):
        if self.task:
            self.is_up = False
            self.state(state, text + (f"; {len(self.waiting)} commands wait" if self.waiting else ""), grade)

    def topic(self, rest):
        return f"tss/{self.name}/{rest}"

    def say(self, rest, text, is_kept=False):
        topic = self.topic(rest)
        return self.client.publish(topic, f"{hmac_of(self.identity.key, f'{topic} {text}')} {text}", qos=1, retain=is_kept).mid

    def keep(self, rest, text):
        """Says it to all of the session, now and whenever it was away."""
        self.kept[rest] = text
        if self.session:
            self.mids[self.say(f"{self.session}/{rest}", text, is_kept=True)] = rest

    def acknowledged(self, mid):
        self.waiting.pop(self.mids.pop(mid, None), None)

    # ---- before tick 0

    async def keep_greeting(self):
        """Says hello until tick 0 is known. Mirror 0 draws the session's number where nobody has answered that one runs."""
        while self.room.start is None or self.session is None:
            if self.is_up and not (self.session and self.room.number == 0):
                nonce = secrets.token_hex(16)
                self.nonces[nonce] = time.monotonic()
                self.say("hello", f"hello {self.room.number} {self.identity.run} {nonce} {self.identity.match}")
                if self.room.number == 0 and time.monotonic() - self.asked > ASKED_FOR and not self.room.peers.refusal:
                    self.open()
            await asyncio.sleep(HELLO_EACH)

    def open(self):
        for topic in self.left.pop(self.forget, ()):
            self.client.publish(topic, b"", qos=1, retain=True)
        if self.left:
            session, topics = next(iter(self.left.items()))
            self.room.peers.refusal = (f"the broker keeps {len(topics)} messages of session {session} with this key, for which nobody answers: it was killed, or is away; "
                                       f"--forget {session} takes them away")
            return
        self.client.unsubscribe([self.topic("+/cmd/#"), self.topic("+/start")])
        self.enter(secrets.token_hex(8))

    def enter(self, session):
        self.session = session
        self.client.subscribe([(self.topic(f"{session}/#"), 1), (self.topic("up/+"), 1)])
        self.say(f"up/{self.identity.run}", f"up {self.room.number} {self.identity.run} {session}", is_kept=True)
        for rest, text in list(self.kept.items()):
            self.keep(rest, text)

    def hear_hello(self, other, run, nonce, match):
        """Who knows that it can't be let in says so; mirror 0 welcomes the others."""
        other = int(other)
        if run == self.identity.run:
            return
        try:
            self.room.peers.admit(Greeted(other, run, match == self.identity.match))
        except Refused as why:
            if self.session:
                self.say(f"answer/{run}", f"refused {self.room.number} {nonce} {why}")
            self.room.say(f"mirror {other} isn't let in: {why}", ERROR, key="not let in")
            return
        if self.session and self.room.number == 0:
            self.say(f"answer/{run}", f"welcome {self.identity.run} {nonce} {self.session} {now():.6f}")

    def hear_welcome(self, run, nonce, session, wall):
        """The offset of the quickest answer counts for tick 0."""
        if nonce not in self.nonces or self.room.number == 0:
            return
        way = time.monotonic() - self.nonces.pop(nonce)
        measured = way, float(wall) + way / 2 - now()
        self.best = min(self.best or measured, measured)
        self.room.peers.runs[0] = run
        if session != self.session and (self.session is None or self.room.start is None):
            self.enter(session)

    def hear_refused(self, other, nonce, why):
        if nonce in self.nonces and self.session is None:
            self.room.peers.refusal = f"mirror {other} refuses: {why}"

    def hear_up(self, other, run, session):
        if session == self.session and int(other) in self.others:
            self.ups[run], self.room.peers.runs[int(other)], self.room.peers.links[int(other)] = int(other), run, 1
            self.room.peers.state(f"link {other}", "up", f"mirror {other} is at the broker")

    def missing(self):
        if not self.is_up or not self.session:
            return ["the broker"]
        return [f"mirror {other}" for other in self.others if not self.room.peers.links[other]]

    def tell_start(self):
        if self.room.number == 0:
            self.keep("start", f"start {self.room.start:.6f}")

    def hear_start(self, start):
        if self.best:
            self.room.peers.hear_clock(0, self.best[1], float(start), self.best[0])

    # ---- what comes

    def hear(self, topic, payload):
        rest = topic[len(self.topic("")):]
        if not payload:
            return self.hear_cleared(rest)
        digest, _, text = payload[:LONGEST].decode("latin-1").partition(" ")
        word, _, words = text.partition(" ")
        found = FORMS[word].fullmatch(words) if word in FORMS else None
        if not found or not payload.isascii() or not topic.isascii() or not hmac.compare_digest(digest, hmac_of(self.identity.key, f"{topic} {text}")):
            return self.room.say("a message was left: it hasn't the key, or isn't of a mirror", WARNING, key="message left")
        if word in OUTSIDE.get(rest.split("/")[0], ()):
            getattr(self, f"hear_{word}")(*found.groups())
        elif rest.split("/")[0] == self.session:
            self.hear_of_session(rest[len(self.session) + 1:], word, found)
        elif self.session is None and self.room.number == 0:
            self.left[rest.split("/")[0]].add(topic)

    def hear_of_session(self, rest, word, found):
        given = found.groups()
        if rest != {"cmd": f"cmd/{'/'.join(given[1:3])}", "start": "start"}.get(word, f"{word}/{given[0]}"):
            return self.room.say("a message was left: it isn't of its topic", WARNING, key="message left")
        if word == "cmd":
            self.hear_cmd(found)
        elif word == "start" or int(given[0]) in self.others:
            getattr(self, f"hear_{word}")(*given)

    def hear_cmd(self, found):
        other, number = int(found.group(2)), int(found.group(3))
        if other in self.came and number not in self.came[other]:
            self.came[other].add(number)
            self.room.hear(found.group())
            self.look_whether_all()

    def hear_cleared(self, rest):
        """A will has cleared who was up; or somebody has who may: then who is up says it again."""
        run = rest[3:] if rest.startswith("up/") else None
        if run == self.identity.run and self.is_up and self.task and self.session:
            self.enter(self.session)
        elif run in self.ups:
            other = self.ups.pop(run)
            self.room.peers.links[other] = 0
            self.room.peers.state(f"link {other}", "away", f"mirror {other} is away from the broker", INFO if other in self.have_all else WARNING)

    # ---- what is sent

    def put(self, command):
        rest = "cmd/" + "/".join(command.split(" ")[1:3])
        self.given += 1
        self.waiting[rest] = [command, 0.0]
        self.keep(rest, f"cmd {command}")

    def again(self):
        """A mirror that is begun anew gets from its room all that came."""
        asyncio.get_running_loop().call_soon(self.room.heard_olds, "broker")

    # ---- the end

    def end(self, tick):
        self.keep(f"ended/{self.room.number}", f"ended {self.room.number} {tick} {self.given}")
        self.look_whether_all()

    def hear_ended(self, other, tick, count):
        self.counts[int(other)] = int(count)
        self.room.peers.hear_ended(int(other), int(tick))
        self.look_whether_all()

    def hear_has(self, other):
        self.have_all.add(int(other))

    def lacking(self):
        return {other for other in self.others if len(self.came[other]) < self.counts.get(other, 1 << 32)}

    def look_whether_all(self):
        number = self.room.number
        if f"ended/{number}" in self.kept and f"has/{number}" not in self.kept and not self.lacking():
            self.keep(f"has/{number}", f"has {number}")

    def awaited(self):
        return [f"mirror {other}" for other in self.lacking() | (self.others - self.have_all)]

    async def close(self):
        """At the end of a session each takes its messages back."""
        if not self.task:
            return
        self.task.cancel()
        self.task = None
        rests = [f"{self.session}/{rest}" for rest in self.kept] + [f"up/{self.identity.run}"] if self.session else []
        taken = await taken_back(self.client, [self.topic(rest) for rest in rests] if self.is_up else [], TAKEN_BACK_WITHIN)
        if taken < len(rests):
            self.room.say(f"{len(rests) - taken} messages of session {self.session} stay at the broker, which is away: --forget {self.session} takes them away", WARNING)
        self.client.disconnect()
        await asyncio.to_thread(self.client.loop_stop)

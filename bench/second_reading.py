#!/usr/bin/env python3
"""A second reading of docs/FORMATS.md: the replies to random schedules, worked out here, against those of the program.

The proofs say that the program is its definitions. This asks whether the definitions are what the page says. It runs the
program that the gate left (`rt run` builds it too), counts which kinds of lines met which kinds of replies, and names those
that the page lets a kind of line reply, but that none did.
Usage: second_reading.py [SCHEDULES [LINES [SEED]]]
"""
import collections
import pathlib
import random
import subprocess
import sys

PROGRAM = pathlib.Path(__file__).resolve().parent.parent / "crates/autopush/out/autopush"
IDLE = 5_184_000

FLIGHT = ["direct", "told", "store", "reread", "nudge", "toldnudge", "clear"]
SAVER = ["saving", "reread", "nudge", "toldnudge", "clear"]
SESSION = ["idle", "topic", "plain", "displaced"]


def but(stages, *own):
    """The replies of an actor that is at another of these stages."""
    return [f"stage {stage}" for stage in stages if stage not in own]


# What each kind of line can be replied.
REPLIES = {
    "create": ["made", "taken"],
    "claim": ["nouser", "stale", "claimed"],
    "attach": ["nodedown", "notclaimed", "outrun", "attached"],
    "register": ["nosession", "endpoint", "tokentaken"],
    "unregister": ["nosession", "done"],
    "check": ["nosession", "due", "notdue"],
    "topics": ["nosession", "stage idle", "stage plain", "page"],
    "plains": ["nosession", "stage idle", "stage topic", "page"],
    "take": ["nosession", "page"],
    "ack": ["nosession", "acked direct", "acked stored", "unknown"],
    "renew": ["nosession", "renewed", "kept"],
    "close": ["nosession", "saving"] + but(SAVER),
    "release": ["nosession", "cleared", "kept"] + but(SAVER + SESSION, "saving"),
    "save": ["nosession", "allsaved", "saved", "left channel", "left zero", "left expired", "left replaced"] + but(SAVER + SESSION, "saving"),
    "begin": ["notoken", "idsspent", "begun"] + but(FLIGHT),
    "direct": ["noflight", "here", "nothere"] + but(FLIGHT, "direct"),
    "store": ["noflight", "stored", "end 201", "end 410", "end 503"] + but(FLIGHT, "store"),
    "giveup": ["noflight", "end 500"] + but(FLIGHT, "direct", "told", "store"),
    "reread f": ["noflight", "names", "end 201"] + but(FLIGHT, "reread"),
    "reread s": ["nosession", "names", "end 200"] + but(SAVER + SESSION, "reread"),
    "nudge f": ["noflight", "here", "nothere"] + but(FLIGHT, "nudge"),
    "nudge s": ["nosession", "here", "nothere"] + but(SAVER + SESSION, "nudge"),
    "heard f": ["noflight", "end 201", "moved store", "moved clear"] + but(FLIGHT, "told", "toldnudge"),
    "heard s": ["nosession", "end 200", "moved clear"] + but(SAVER + SESSION, "toldnudge"),
    "lost f": ["noflight", "end 201", "moved store", "moved clear"] + but(FLIGHT, "direct", "told", "nudge", "toldnudge"),
    "lost s": ["nosession", "moved clear"] + but(SAVER + SESSION, "nudge", "toldnudge"),
    "clear f": ["noflight", "end 201"] + but(FLIGHT, "clear"),
    "clear s": ["nosession", "end 200"] + but(SAVER + SESSION, "clear"),
    "notif": ["here", "nothere"],
    "tick": ["done"],
    "kill": ["killed"],
    "up": ["done"],
    "expire": ["kept", "dropped"],
    "drop": ["kept", "dropped"],
    "orphans": ["users"],
    "idle": ["users"],
    "report": ["report"],
}
# Why no schedule meets these.
UNREACHED = {("begin", "idsspent"): "a replay's first message has the number 1, and there would have to be 2^63 - 1 before"}


class Session:
    def __init__(self, node, at):
        self.node, self.at = node, at
        self.displaced = False
        self.inbox, self.direct, self.sent = [], [], []
        self.check, self.fetch = True, "idle"

    def held(self):
        return self.direct + self.inbox

    def stage(self):
        return "displaced" if self.displaced else self.fetch


class Saver:
    def __init__(self, session):
        self.node, self.at = session.node, session.at
        self.held, self.saved = session.held(), []
        self.stage = ("saving",)


class User:
    def __init__(self, node, at, clock):
        self.node, self.at, self.touched = node, at, clock
        self.channels, self.rows = [], []

    def token_of(self, channel):
        return next((t for c, t in self.channels if c == channel), None)

    def clear_marks(self, node, at):
        if (self.node, self.at) == (node, at):
            for row in self.rows:
                row["orphan"] = False

    def unroute(self, node, at):
        named = (self.node, self.at) == (node, at)
        if named:
            self.node = None
        return named


class Cell:
    """What belongs to one uaid."""

    def __init__(self):
        self.user, self.claims, self.sessions, self.savers, self.flights = None, [], [], [], {}

    def attached(self, node, at):
        return next((x for x in self.sessions if (x.node, x.at) == (node, at) and not x.displaced), None)

    def named(self, node, at):
        return next((x for x in self.sessions if (x.node, x.at) == (node, at)), None)

    def at_node(self, node):
        return next((x for x in self.sessions if x.node == node and not x.displaced), None)

    def saver(self, node, at):
        return next((v for v in self.savers if (v.node, v.at) == (node, at)), None)

    def routed(self):
        return self.attached(self.user.node, self.user.at) if self.user and self.user.node else None

    def unsent(self):
        x = self.routed()
        ids = {i for _, i in x.sent} if x else ()
        return [r for r in self.user.rows if r["message"]["id"] not in ids] if x else []

    def told(self, node):
        """The session at the node is told to look at the rows."""
        x = self.at_node(node)
        if x:
            x.check = True
            self.user.clear_marks(x.node, x.at)
        return bool(x)

    def waiting(self):
        return [r for r in self.unsent() if not self.covered(self.routed(), r)]

    def covered(self, x, row):
        has_topic, number = row["message"]["topic"] != ".", row["message"]["id"]
        if x.check or row["orphan"] or x.fetch == "topic" or (x.fetch == "plain" and not has_topic):
            return True
        actors = [f["stage"] for f in self.flights.values() if f["message"]["id"] == number]
        actors += [v.stage for v in self.savers if number in v.saved]
        return any(s[0] in ("reread", "saving") or (s[0] in ("nudge", "clear") and s[1:] == (x.node, x.at)) for s in actors)


class Shard:
    """Shard 0, as the page describes it."""

    def __init__(self):
        self.clock, self.next, self.down, self.cells = 0, 1, set(), {}

    # ---- parts

    def cell(self, uaid):
        return self.cells.setdefault(uaid, Cell())

    def expired(self, message):
        return message["ttl"] > 0 and message["accepted"] + message["ttl"] <= self.clock

    def owner(self, token):
        """The uaid and the channel that have the token."""
        for uaid in sorted(self.cells):
            user = self.cells[uaid].user
            for channel, its in user.channels if user else ():
                if its == token:
                    return uaid, channel
        return None

    def flight(self, op):
        return next(((c, c.flights[op]) for c in self.cells.values() if op in c.flights), (None, None))

    def page(self, messages):
        return "page" + "".join(f" {m['id']}:{m['channel']}:{m['payload']}" for m in messages)

    # ---- users

    def create(self, uaid, node, at):
        cell = self.cell(uaid)
        if cell.user:
            return "taken"
        cell.user = User(node, at, self.clock)
        cell.claims.append((node, at))
        return "made"

    def claim(self, uaid, node, at):
        cell = self.cell(uaid)
        user = cell.user
        if not user:
            return "nouser"
        if user.at >= at:
            return f"stale {user.at}"
        previous = user.node
        user.node, user.at, user.touched = node, at, self.clock
        cell.claims.append((node, at))
        return f"claimed {previous or '.'}"

    def drop(self, uaid):
        cell = self.cell(uaid)
        if not cell.user:
            return "kept"
        flights = cell.flights
        self.cells[uaid] = Cell()
        self.cells[uaid].flights = flights
        return "dropped"

    def is_idle(self, cell):
        attached = any(not x.displaced for x in cell.sessions)
        return bool(cell.user) and not attached and self.clock >= cell.user.touched + IDLE

    def expire(self, uaid):
        return self.drop(uaid) if self.is_idle(self.cell(uaid)) else "kept"

    # ---- sessions

    def attach(self, uaid, node, at):
        cell = self.cell(uaid)
        if node in self.down:
            return "nodedown"
        if (node, at) not in cell.claims:
            return "notclaimed"
        cell.claims.remove((node, at))
        other = cell.at_node(node)
        if other and other.at > at:
            return f"outrun {other.at}"
        if other:
            other.displaced = True
        cell.sessions.append(Session(node, at))
        cell.user.clear_marks(node, at)
        return f"attached {other.at}" if other else "attached ."

    def register(self, uaid, node, at, channel, token):
        cell = self.cell(uaid)
        if not cell.attached(node, at):
            return "nosession"
        its = cell.user.token_of(channel)
        if its is not None:
            return f"endpoint {its}"
        if self.owner(token):
            return "tokentaken"
        cell.user.channels.append((channel, token))
        return f"endpoint {token}"

    def unregister(self, uaid, node, at, channel):
        cell = self.cell(uaid)
        if not cell.attached(node, at):
            return "nosession"
        user = cell.user
        user.channels = [c for c in user.channels if c[0] != channel]
        user.rows = [r for r in user.rows if r["message"]["channel"] != channel]
        for x in cell.sessions:
            x.sent = [pair for pair in x.sent if pair[0] != channel]
        return "done"

    def check(self, uaid, node, at):
        x = self.cell(uaid).attached(node, at)
        if not x:
            return "nosession"
        if not x.check or x.sent or x.fetch != "idle":
            return "notdue"
        x.check, x.fetch = False, "topic"
        return "due"

    def fetch(self, uaid, node, at, kind):
        cell = self.cell(uaid)
        x = cell.attached(node, at)
        if not x:
            return "nosession"
        if x.fetch != kind:
            return f"stage {x.fetch}"
        ids = {i for _, i in x.sent}
        rows = [r["message"] for r in cell.user.rows]
        rows = [m for m in rows if (m["topic"] != ".") == (kind == "topic") and m["id"] not in ids]
        x.sent += [(m["channel"], m["id"]) for m in rows[:10]]
        x.check = x.check or len(rows) > 10
        x.fetch = "plain" if kind == "topic" else "idle"
        return self.page(rows[:10])

    def take(self, uaid, node, at):
        x = self.cell(uaid).attached(node, at)
        if not x:
            return "nosession"
        timely = [m for m in x.inbox if not self.expired(m)]
        x.inbox = timely[10:]
        x.direct += timely[:10]
        return self.page(timely[:10])

    def ack(self, uaid, node, at, channel, number):
        cell = self.cell(uaid)
        x = cell.attached(node, at)
        if not x:
            return "nosession"
        direct = next((m for m in x.direct if (m["channel"], m["id"]) == (channel, number)), None)
        sent = (channel, number) in x.sent
        if not direct and not sent:
            return "unknown"
        if direct:
            x.direct.remove(direct)
        if sent:
            x.sent.remove((channel, number))
        row = next((r for r in cell.user.rows if r["message"]["id"] == number), None)
        if row:
            cell.user.rows.remove(row)
        return "acked direct" if direct else "acked stored"

    def renew(self, uaid, node, at):
        cell = self.cell(uaid)
        x = cell.attached(node, at)
        if not x:
            return "nosession"
        user = cell.user
        if user.at != at or user.node:
            return "kept"
        user.node, user.touched, x.check = node, self.clock, True
        user.clear_marks(node, at)
        return "renewed"

    # ---- savers

    def close(self, uaid, node, at):
        cell = self.cell(uaid)
        x = cell.named(node, at)
        if not x:
            saver = cell.saver(node, at)
            return f"stage {saver.stage[0]}" if saver else "nosession"
        cell.sessions.remove(x)
        cell.savers.append(Saver(x))
        cell.user.touched = self.clock
        return f"saving {len(x.held())}"

    def of_saver(self, uaid, node, at, names):
        """The cell and the saver at one of these stages, or the reply where it isn't there."""
        cell = self.cell(uaid)
        saver = cell.saver(node, at)
        if not saver:
            x = cell.named(node, at)
            return cell, None, f"stage {x.stage()}" if x else "nosession"
        if saver.stage[0] not in names:
            return cell, None, f"stage {saver.stage[0]}"
        return cell, saver, None

    def release(self, uaid, node, at):
        cell, saver, reply = self.of_saver(uaid, node, at, ["saving"])
        if reply:
            return reply
        return "cleared" if cell.user.unroute(node, at) else "kept"

    def save(self, uaid, node, at):
        cell, saver, reply = self.of_saver(uaid, node, at, ["saving"])
        if reply:
            return reply
        if not saver.held:
            if saver.saved:
                saver.stage = ("reread",)
            else:
                cell.savers.remove(saver)
            return "allsaved"
        m = saver.held.pop(0)
        if cell.user.token_of(m["channel"]) is None:
            return f"left {m['id']} channel"
        if m["ttl"] == 0:
            return f"left {m['id']} zero"
        if self.expired(m):
            return f"left {m['id']} expired"
        if self.keep(cell.user, m) == "older":
            return f"left {m['id']} replaced"
        saver.saved.append(m["id"])
        return f"saved {m['id']}"

    def keep(self, user, m, limit=None):
        """The message becomes the last row, unless it is one, a newer one has its topic, or there are too many."""
        if any(r["message"]["id"] == m["id"] for r in user.rows):
            return "same"
        same = None
        if m["topic"] != ".":
            same = next((r for r in user.rows if (r["message"]["channel"], r["message"]["topic"]) == (m["channel"], m["topic"])), None)
        if same and same["message"]["id"] > m["id"]:
            return "older"
        if not same and limit and len(user.rows) >= limit:
            return "full"
        if same:
            user.rows.remove(same)
        user.rows.append({"message": m, "orphan": False})
        return "joined"

    def saver_reread(self, uaid, node, at):
        cell, saver, reply = self.of_saver(uaid, node, at, ["reread"])
        if reply:
            return reply
        if cell.user.node:
            saver.stage = ("nudge", cell.user.node, cell.user.at)
            return f"names {cell.user.node} {cell.user.at}"
        cell.savers.remove(saver)
        return "end 200"

    def saver_nudge(self, uaid, node, at):
        cell, saver, reply = self.of_saver(uaid, node, at, ["nudge"])
        if reply:
            return reply
        told = cell.told(saver.stage[1])
        saver.stage = ("toldnudge", told) + saver.stage[1:]
        return "here" if told else "nothere"

    def saver_heard(self, uaid, node, at):
        cell, saver, reply = self.of_saver(uaid, node, at, ["toldnudge"])
        if reply:
            return reply
        if saver.stage[1]:
            cell.savers.remove(saver)
            return "end 200"
        saver.stage = ("clear",) + saver.stage[2:]
        return "moved clear"

    def saver_lost(self, uaid, node, at):
        cell, saver, reply = self.of_saver(uaid, node, at, ["nudge", "toldnudge"])
        if reply:
            return reply
        saver.stage = ("clear",) + saver.stage[-2:]
        return "moved clear"

    def saver_clear(self, uaid, node, at):
        cell, saver, reply = self.of_saver(uaid, node, at, ["clear"])
        if reply:
            return reply
        cell.user.unroute(*saver.stage[1:])
        cell.savers.remove(saver)
        return "end 200"

    # ---- flights

    def begin(self, op, token, ttl, topic, payload):
        _, flight = self.flight(op)
        if flight:
            return f"stage {flight['stage'][0]}"
        owner = self.owner(token)
        if not owner:
            return "notoken"
        uaid, channel = owner
        cell = self.cells[uaid]
        m = {"id": self.next, "channel": channel, "payload": payload, "ttl": ttl, "topic": topic, "accepted": self.clock}
        self.next += 1
        user = cell.user
        stage = ("direct", user.node, user.at) if user.node else ("store",)
        if user.node or ttl:
            cell.flights[op] = {"message": m, "token": token, "stage": stage}
        return f"begun {m['id']} {user.node} {user.at}" if user.node else f"begun {m['id']} ."

    def of_flight(self, op, names):
        cell, flight = self.flight(op)
        if not flight:
            return None, None, "noflight"
        if flight["stage"][0] not in names:
            return None, None, f"stage {flight['stage'][0]}"
        return cell, flight, None

    def end(self, cell, op, code):
        del cell.flights[op]
        return f"end {code}"

    def has_token(self, cell, flight):
        return bool(cell.user) and cell.user.token_of(flight["message"]["channel"]) == flight["token"]

    def direct(self, op):
        cell, flight, reply = self.of_flight(op, ["direct"])
        if reply:
            return reply
        x, m = cell.at_node(flight["stage"][1]), flight["message"]
        here = bool(x and len(x.held()) < 500 and self.has_token(cell, flight) and not self.expired(m))
        if here:
            x.inbox.append(m)
        flight["stage"] = ("told", here)
        return "here" if here else "nothere"

    def store(self, op):
        cell, flight, reply = self.of_flight(op, ["store"])
        if reply:
            return reply
        if not self.has_token(cell, flight):
            return self.end(cell, op, 410)
        if self.expired(flight["message"]):
            return self.end(cell, op, 201)
        kept = self.keep(cell.user, flight["message"], 1000)
        if kept in ("older", "full"):
            return self.end(cell, op, 201 if kept == "older" else 503)
        flight["stage"] = ("reread",)
        return "stored"

    def giveup(self, op):
        cell, flight, reply = self.of_flight(op, ["direct", "told", "store"])
        return reply or self.end(cell, op, 500)

    def reread(self, op):
        cell, flight, reply = self.of_flight(op, ["reread"])
        if reply:
            return reply
        if cell.user and cell.user.node:
            flight["stage"] = ("nudge", cell.user.node, cell.user.at)
            return f"names {cell.user.node} {cell.user.at}"
        return self.end(cell, op, 201)

    def nudge(self, op):
        cell, flight, reply = self.of_flight(op, ["nudge"])
        if reply:
            return reply
        told = cell.told(flight["stage"][1])
        flight["stage"] = ("toldnudge", told) + flight["stage"][1:]
        return "here" if told else "nothere"

    def unheard(self, cell, op, flight):
        if flight["message"]["ttl"] == 0:
            return self.end(cell, op, 201)
        flight["stage"] = ("store",)
        return "moved store"

    def lost(self, op):
        cell, flight, reply = self.of_flight(op, ["direct", "told", "nudge", "toldnudge"])
        if reply:
            return reply
        if flight["stage"][0] in ("direct", "told"):
            return self.unheard(cell, op, flight)
        flight["stage"] = ("clear",) + flight["stage"][-2:]
        return "moved clear"

    def heard(self, op):
        cell, flight, reply = self.of_flight(op, ["told", "toldnudge"])
        if reply:
            return reply
        if flight["stage"][1]:
            return self.end(cell, op, 201)
        if flight["stage"][0] == "told":
            return self.unheard(cell, op, flight)
        flight["stage"] = ("clear",) + flight["stage"][2:]
        return "moved clear"

    def clear(self, op):
        cell, flight, reply = self.of_flight(op, ["clear"])
        if reply:
            return reply
        if cell.user:
            cell.user.unroute(*flight["stage"][1:])
        return self.end(cell, op, 201)

    # ---- the clock, the nodes and the lists

    def tick(self, moment):
        self.clock = max(self.clock, moment)
        for cell in self.cells.values():
            if cell.user:
                cell.user.rows = [r for r in cell.user.rows if not self.expired(r["message"])]
        return "done"

    def notif(self, node, uaid):
        return "here" if self.cell(uaid).told(node) else "nothere"

    def kill(self, node):
        self.down.add(node)
        held = orphans = 0
        for cell in self.cells.values():
            gone = [x for x in cell.sessions if x.node == node]
            ended = [v for v in cell.savers if v.node == node]
            held += sum(len(x.held()) for x in gone) + sum(len(v.held) for v in ended)
            marked = {i for v in ended if v.stage[0] != "toldnudge" for i in v.saved}
            for row in cell.user.rows if cell.user else ():
                if row["message"]["id"] in marked and not row["orphan"]:
                    row["orphan"] = True
                    orphans += 1
            cell.sessions = [x for x in cell.sessions if x.node != node]
            cell.savers = [v for v in cell.savers if v.node != node]
            cell.claims = [c for c in cell.claims if c[0] != node]
        return f"killed {held} {orphans}"

    def up(self, node):
        self.down.discard(node)
        return "done"

    def users(self, chosen):
        named = [(u, self.cells[u].user) for u in sorted(self.cells) if chosen(self.cells[u])][:100]
        return "users" + "".join(f" {u:x}:{user.node or '.'}:{user.at}" for u, user in named)

    def orphans(self):
        return self.users(lambda c: bool(c.routed()) and any(r["orphan"] for r in c.user.rows))

    def idle(self):
        return self.users(self.is_idle)

    def report(self):
        cells = list(self.cells.values())
        rows = [r for c in cells if c.user for r in c.user.rows]
        held = sum(len(x.held()) for c in cells for x in c.sessions) + sum(len(v.held) for c in cells for v in c.savers)
        waiting = sum(len(c.waiting()) for c in cells)
        assert waiting == 0, "a row waits that nobody is to tell of"
        return (
            f"report users {sum(bool(c.user) for c in cells)} stored {len(rows)} held {held} "
            f"flights {sum(len(c.flights) for c in cells)} unsent {sum(len(c.unsent()) for c in cells)} "
            f"orphans {sum(r['orphan'] for r in rows)} waiting {waiting}"
        )


class Picker:
    """Draws lines that mostly fit what is there."""

    def __init__(self, pick):
        self.pick, self.shard, self.stamp = pick, Shard(), 0
        self.many = pick.choice([1, 3, 8])
        self.ttls = pick.choice([[60, 3600, 2_592_000], [0, 1, 5, 60], [0, 60, 600, 2_592_000]])
        self.topics = pick.choice([["."], [".", ".", "t"], ["a", "b", "c", "."], [f"x{i}" for i in range(25)] + ["."]])
        self.pace = pick.choice([0, 1, 40, 600, 400_000])
        self.ops = pick.choice([5, 50, 100_000])
        self.leaving = pick.choice([0.1, 1, 4])
        self.killing = pick.choice([0, 0.05, 0.5])
        self.acking = pick.choice([0.3, 3, 9])
        self.attaching = pick.choice([0.5, 5, 5])
        if pick.random() < 0.05:
            # a user whose rows stay, up to the thousand
            self.hoards, self.many, self.ttls, self.topics, self.ops = True, 1, [2_592_000], ["."] * 7 + ["t"], 50
        else:
            self.hoards = False

    def session(self, among=("sessions", "savers", "claims")):
        """A uaid, a node and a moment: of one that is there, mostly."""
        pick, cells = self.pick, self.shard.cells
        known = []
        for uaid, cell in cells.items():
            if "sessions" in among:
                known += [(uaid, x.node, x.at) for x in cell.sessions]
            if "savers" in among:
                known += [(uaid, v.node, v.at) for v in cell.savers]
            if "claims" in among:
                known += [(uaid, n, a) for n, a in cell.claims]
        if known and pick.random() < 0.93:
            return pick.choice(known)
        return pick.randint(1, self.many), pick.randint(1, 3), pick.randint(1, self.stamp + 2)

    def op(self):
        known = [op for cell in self.shard.cells.values() for op in cell.flights]
        if known and self.pick.random() < 0.9:
            return self.pick.choice(known)
        return self.pick.randint(1, 2), self.pick.randint(1, self.ops)

    def number(self, uaid):
        cell = self.shard.cells.get(uaid)
        known = [(m["channel"], m["id"]) for x in cell.sessions for m in x.direct] if cell else []
        known += [pair for x in cell.sessions for pair in x.sent] if cell else []
        if known and self.pick.random() < 0.9:
            return self.pick.choice(known)
        return self.pick.choice("456"), self.pick.randint(1, self.shard.next + 1)

    def line_and_reply(self):
        """A random line, and the reply that the page says."""
        pick, shard = self.pick, self.shard
        kinds, weights = zip(*self.weights().items())
        kind = pick.choices(kinds, weights)[0]
        uaid = pick.randint(1, self.many)
        node = pick.randint(1, 3)
        if kind in ("create", "claim"):
            at = self.stamp
            if pick.random() < 0.8:
                self.stamp += 1
                at = self.stamp
            return f"{kind} {uaid:x} {node} {at}", getattr(shard, kind)(uaid, node, at)
        if kind in ("expire", "drop"):
            return f"{kind} {uaid:x}", getattr(shard, kind)(uaid)
        if kind == "notif":
            return f"notif {node} {uaid:x}", shard.notif(node, uaid)
        if kind in ("kill", "up"):
            return f"{kind} {node}", getattr(shard, kind)(node)
        if kind in ("orphans", "idle", "report"):
            return kind, getattr(shard, kind)()
        if kind == "tick":
            moment = max(0, shard.clock + pick.randint(-1, 1 + self.pace))
            return f"tick {moment}", shard.tick(moment)
        if kind == "begin":
            op = (pick.randint(1, 2), pick.randint(1, self.ops))
            token, ttl, topic = pick.choice(self.tokens()), pick.choice(self.ttls), pick.choice(self.topics)
            payload = pick.choice([".", "00", "6869"])
            line = f"begin {op[0]} {op[1]} {token} {ttl} {topic} {pick.choice(['very-low', 'low', 'normal', 'high'])} {payload}"
            return line, shard.begin(op, token, ttl, topic, payload)
        if kind in ("direct", "store", "giveup"):
            op = self.op()
            return f"{kind} {op[0]} {op[1]}", getattr(shard, kind)(op)
        if kind.startswith("f "):
            op, verb = self.op(), kind[2:]
            return f"{verb} f {op[0]} {op[1]}", getattr(shard, verb)(op)
        if kind.startswith("s "):
            s, verb = self.session(("savers",)), kind[2:]
            return f"{verb} s {s[0]:x} {s[1]} {s[2]}", getattr(shard, "saver_" + verb)(*s)
        among = {"attach": ("claims",), "release": ("savers",), "save": ("savers",)}
        if kind == "close" and pick.random() < 0.1:
            among["close"] = ("savers",)
        s = self.session(among.get(kind, ("sessions",)))
        name = f"{kind} {s[0]:x} {s[1]} {s[2]}"
        if kind == "register":
            channel, token = pick.choice("456"), pick.choice(self.tokens())
            return f"{name} {channel} {token}", shard.register(*s, channel, token)
        if kind == "unregister":
            channel = pick.choice("456")
            return f"{name} {channel}", shard.unregister(*s, channel)
        if kind == "ack":
            channel, number = self.number(s[0])
            return f"{name} {channel} {number}", shard.ack(*s, channel, number)
        if kind in ("topics", "plains"):
            return name, shard.fetch(*s, kind[:-1])
        return name, getattr(shard, kind)(*s)

    def tokens(self):
        return [f"{u}{c}" for u in range(1, self.many + 1) for c in "456"] + ["1ab"]

    def weights(self):
        if self.hoards:
            return {"create": 1, "attach": 1, "register": 1, "begin": 9, "f lost": 12, "store": 9, "f reread": 9, "f clear": 6, "renew": 3, "report": 0.1}
        leaving, killing = self.leaving, self.killing
        return {
            "create": 2, "claim": 2 * leaving, "attach": self.attaching, "register": 4, "unregister": 0.4 * leaving,
            "begin": 14, "direct": 9, "store": 9, "giveup": 0.4, "f reread": 7, "f nudge": 6, "f heard": 8, "f lost": 4, "f clear": 3,
            "check": 5, "topics": 5, "plains": 5, "take": 4, "ack": self.acking, "renew": 2,
            "close": 1.5 * leaving, "release": leaving, "save": 6 * leaving, "s reread": 2, "s nudge": 2, "s heard": 2, "s lost": 0.5,
            "s clear": 1, "notif": 0.6, "tick": 1.5, "kill": killing, "up": 2 * killing, "expire": 0.2, "drop": 0.1 * leaving,
            "orphans": 0.4, "idle": 0.4, "report": 3,
        }


def kind_of_reply(reply):
    """The first word, and the second where that tells kinds apart."""
    first = reply.split(" ")
    if first[0] == "left":
        return f"left {first[2]}"
    return " ".join(first[:2]) if first[0] in ("stage", "moved", "end", "acked") else first[0]


def schedule(pick, lines, met):
    """A schedule and its replies."""
    picker = Picker(pick)
    said, replied = [], []
    for _ in range(lines):
        line, reply = picker.line_and_reply()
        said.append(line)
        replied.append(reply)
        words = line.split(" ")
        kind = " ".join(words[:2]) if words[0] in ("reread", "nudge", "heard", "lost", "clear") else words[0]
        met[kind, kind_of_reply(reply)] += 1
    return said, replied


def tell_unmet(met):
    """Says which pairs the page allows and the schedules didn't meet; a pair that it doesn't allow is a fault."""
    allowed = {(kind, reply) for kind, replies in REPLIES.items() for reply in replies}
    for kind, reply in sorted(set(met) - allowed):
        print(f"{kind}: {reply} is none of its replies")
    print(f"of {len(allowed)} such pairs that can be {len(allowed & set(met))} were met, and not:")
    for pair in sorted(allowed - set(met)):
        print(f"  {pair[0]}: {pair[1]} ({UNREACHED.get(pair, 'not in this run')})")
    return not set(met) - allowed


def main():
    asked = [int(word) for word in sys.argv[1:4]]
    schedules, lines, seed = asked + [100, 3000, 1][len(asked) :]
    total, met = 0, collections.Counter()
    for number in range(schedules):
        said, replied = schedule(random.Random(seed * 1_000_003 + number), lines, met)
        text = "".join(line + "\n" for line in said).encode()
        ran = subprocess.run([PROGRAM, "replay"], input=text, capture_output=True, timeout=60)
        written = ran.stdout.decode().splitlines()
        if ran.returncode != 0 or written != replied:
            at = next((i for i, (a, b) in enumerate(zip(written, replied)) if a != b), min(len(written), len(replied)))
            print(f"schedule {number}, status {ran.returncode}, line {at + 1}: {said[at] if at < len(said) else ''}")
            print(f"the program: {written[at:at + 1]}, this reading: {replied[at:at + 1]}")
            return 1
        total += len(said)
    print(f"{schedules} schedules, {total} lines: the same replies; {len(met)} pairs of a kind of line and a kind of reply:")
    kinds = collections.defaultdict(list)
    for (kind, reply), times in sorted(met.items()):
        kinds[kind].append(f"{reply} {times}")
    for kind, replies in sorted(kinds.items()):
        print(f"  {kind}: {', '.join(replies)}")
    return 0 if tell_unmet(met) else 1


if __name__ == "__main__":
    sys.exit(main())

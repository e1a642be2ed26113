"""Draws lists of events, for `drawn`. What is drawn next depends on what the model says there is: an actor with a transaction mostly goes
on with it, a failed agent is mostly the one that is restarted, and so on. But anything may come at any time.
"""

import random

from auditor import NIL, depth, read
from model import Play, Refused, text

KINDS = ("ref", "atom", "agent")
NAMES = {"ref": ("a", "b", "c/d", "*r*"), "atom": ("x", "y?"), "agent": ("g", "h", "i.j")}
SCALARS = ("nil", "true", "false", ":k", ":a/b", "sym", "+", '""', '"a"', '"\\u00e9\\n"', '"é\n"', '"\\"\\\\\\t\\r\\b\\f"', "-0", "+5")
EXTREMES = (2**63 - 1, 2**63 - 2, -(2**63), -(2**63) + 1, 2**62, -(2**62))
FUNCTIONS = ("+", "-", "inc", "dec", "max", "min", "conj", "assoc", "dissoc", "disj")
PREDICATES = (">=", "<=", "=", "int?", "string?", "vector?", "map?", "set?", "some?")
# Half of what a book of the tally holds, and one more.
HALF = 2**62
# An event may be nested 49 deep, itself included.
DEEPEST = 48


class List:
    """What is declared, as texts by kind, and the events, as texts."""

    def __init__(self, declared, events=()):
        self.declared, self.events = declared, list(events)

    def text(self):
        parts = [f" :{kind}s [{' '.join(forms)}]" for kind, forms in self.declared.items() if forms]
        if self.events:
            parts.append(" :events\n [" + "\n  ".join(self.events) + "]")
        return "{:version 1" + "\n".join(["", *parts]) + "}\n"

    def without(self, at, count=1):
        return List(self.declared, self.events[:at] + self.events[at + count :])


class Draws:
    """What is drawn of a seed: one list."""

    def __init__(self, seed):
        self.random = random.Random(seed)

    def below(self, limit):
        return self.random.randrange(limit)

    def once_in(self, times):
        return self.below(times) == 0

    def one(self, of):
        return self.random.choice(of)

    def weighed(self, choices):
        """One of the keys, each as often as its value says."""
        return self.random.choices(list(choices), choices.values())[0]

    # ---- values

    def small(self):
        return str(self.below(14) - 3)

    def integer(self):
        return str(self.one(EXTREMES)) if self.once_in(10) else self.small()

    def distinct(self, count, room):
        """Different values."""
        return list({read(it): it for it in (self.value(room) for _ in range(count))}.values())

    def collection(self, room):
        kind, inside = self.below(4), self.distinct(self.below(4), room - 1)
        if kind == 0:
            return "#{" + " ".join(inside) + "}"
        if kind == 1:
            return "{" + ", ".join(f"{it} {self.value(room - 1)}" for it in inside) + "}"
        return f"[{' '.join(inside)}]" if kind == 2 else f"( {','.join(inside)})"

    def deep(self, room):
        levels = max(1, room - self.one((0, 0, 1, 2)))
        return "[" * levels + "]" * levels

    def value(self, room=DEEPEST):
        """Any value that is nested at most so deep."""
        kind = self.below(40)
        if kind < 24 or room < 2:
            return self.integer()
        if kind < 30:
            return self.one(SCALARS)
        return self.deep(room) if kind == 39 and self.once_in(2) else self.collection(min(room, 4))

    def like(self, value):
        """A value, often one that is near this."""
        if value[0] == "int" and not self.once_in(4):
            return self.integer()
        return text(value) if self.once_in(3) else self.value()

    # ---- functions and predicates

    def fitting(self, value, room):
        """A function that takes a value, with arguments."""
        kind = value[0]
        if kind == "int":
            name = self.weighed({"+": 6, "-": 6, "inc": 2, "dec": 2, "max": 1, "min": 1})
            count = 0 if name in ("inc", "dec") else self.weighed({0: 1, 1: 12, 2: 2, 8: 1})
            return name, [self.integer() for _ in range(count)]
        if kind == "vector":
            return "conj", [self.deep(room) if self.once_in(3) else self.value(room) for _ in range(self.below(3))]
        if kind == "set":
            return self.one(("conj", "disj")), [self.value(room) for _ in range(self.below(4))]
        keys = [text(key) for key, _ in value[1]] if kind == "map" else []
        key = self.one(sorted(keys)) if keys and not self.once_in(3) else self.value(room)
        if kind == "map" and self.once_in(2):
            return "dissoc", [key]
        return "assoc", [key, self.deep(room) if self.once_in(6) else self.value(room)] * self.weighed({1: 6, 2: 1, 4: 1})

    def call(self, value=NIL, room=DEEPEST):
        """A function with arguments, mostly one that takes this value."""
        if self.once_in(6) or (value[0] in ("string", "word") and value != NIL):
            name, args = self.one(FUNCTIONS), [self.value(room) for _ in range(self.below(4))]
        else:
            name, args = self.fitting(value, room)
        if self.once_in(25):
            args = [*args, self.value(room)][:8]
        return " ".join([name, *args])

    def counted(self):
        """A function that the tally is commuted by, mostly."""
        if self.once_in(6):
            return self.call(("int", 0))
        return f"{self.one('+-')} {self.weighed({self.below(9): 6, HALF: 1, 2**63 - 1: 1})}"

    def predicate(self, value=NIL, room=DEEPEST):
        """A predicate with arguments, often one that accepts this value."""
        kind = self.below(12)
        if kind == 0:
            return " ".join([self.one(PREDICATES), *(self.value(room) for _ in range(self.below(3)))])
        if kind == 1 and depth(value) <= room:
            return f"= {text(value)}"
        if kind == 2 or value[0] != "int":
            return self.one(("some?", "int?", "vector?", "map?", "set?", "string?", f"= {self.value(room)}"))
        if kind < 5:
            return f"<= {self.below(30)}"
        return f">= {self.below(20) - 15}"

    def rule(self, value=NIL):
        return f"[{self.predicate(value, DEEPEST - 1)}]"

    # ---- what is declared

    def start(self):
        """A value to begin with: mostly an integer, or an empty collection."""
        return self.weighed({self.small(): 10, "[]": 3, "#{}": 1, "{}": 1, "nil": 1, self.value(): 4})

    def form(self, kind):
        """A value, a rule or none, and what follows."""
        value = self.start()
        rule = self.rule(read(value)) if self.once_in(3) else ""
        if kind == "ref" and self.once_in(4):
            return value if self.once_in(8) else self.small(), rule, ":tally"
        if kind == "agent" and self.once_in(2):
            return value, rule, self.one((":fail", ":continue"))
        return value, rule, ""

    def fits(self, declared):
        try:
            Play(List(declared).text()).declare()
        except Refused:
            return False
        return True

    def declare(self):
        """Texts of references by kind. Only now and then the world can't begin with them."""
        while True:
            declared = {kind: [] for kind in KINDS}
            for kind, names in NAMES.items():
                for name in names[: 0 if self.once_in(16) else 1 + self.below(len(names))]:
                    more = [it for it in self.form(kind) if it]
                    declared[kind].append(f"[{' '.join([name, *more])}]")
            if self.fits(declared) or self.once_in(25):
                return declared

    # ---- references in events

    def count(self, kind):
        return len(self.world.of_kind(kind))

    def at(self, kind):
        """A number of a kind, rather a small one, now and then of a reference that isn't there."""
        count = self.count(kind)
        if count == 0 or self.once_in(20):
            return self.weighed({count: 8, count + 1: 2, 2**32 - 1: 1})
        return min(self.below(count), self.below(count))

    def named(self, kind, at):
        declared = self.list.declared[kind]
        if at < len(declared) and not self.once_in(6):
            return NAMES[kind][at]
        return f"[:{kind} {at}]"

    def value_at(self, kind, at):
        found = self.world.find((kind, at))
        return NIL if found is None else found.value

    def anyone(self):
        """Any reference, as its text and its value."""
        kind = self.one(KINDS)
        at = self.at(kind)
        return self.named(kind, at), self.value_at(kind, at)

    def agent(self, preferred):
        """An agent, mostly one of those preferred."""
        chosen = [it.number for it in self.world.agents if preferred(it)]
        return self.one(chosen) if chosen and not self.once_in(5) else self.at("agent")

    def key(self):
        return self.one((":w", "1", "[2 #{}]"))

    # ---- acts

    def in_transaction(self, actor):
        if actor is None or actor.tx is None:
            return ":begin" if not self.once_in(10) else self.on_open(None)
        return self.on_open(actor.tx)

    def on_open(self, tx):
        made = len(tx.done) + len(tx.sends) if tx else 0
        kind = self.weighed({
            ":begin": 1, ":read-point": 1, ":abort": 1, ":commit": 24 if made > 1 else 4, ":deref": 2, ":ensure": 3, ":require": 3,
            ":ref-set": 4, ":alter": 5, ":commute": 9, ":send-in-tx": 3, ":send-carry-in-tx": 2,
        })  # fmt: skip
        if kind in (":begin", ":read-point", ":abort", ":commit"):
            return kind
        if kind.startswith(":send"):
            return f"{kind} {self.sent(kind)}"
        at = tx.tally if tx and tx.tally is not None and self.once_in(2) else self.at("ref")
        value = tx.values[at] if tx and at < len(tx.values) else self.value_at("ref", at)
        end = self.done(kind, value, tx and at == tx.tally)
        return f"{kind} {self.named('ref', at)} {end}".rstrip(" ")

    def done(self, kind, value, is_tally):
        if kind == ":ref-set":
            return self.like(value)
        if kind == ":require":
            return self.predicate(value)
        if kind in (":alter", ":commute"):
            return self.counted() if is_tally else self.call(value)
        return ""

    def with_job(self, actor):
        if self.once_in(6):
            return self.one((":take", ":run", ":finish", ":put-back"))
        if actor is None or actor.job is None:
            return ":take" if self.world.ready() or self.once_in(4) else self.on_agents()
        return ":run" if actor.job.came is None else ":finish"

    def sent(self, kind):
        """An agent with an action, which carries something or doesn't."""
        at = self.at("agent")
        value = NIL if self.once_in(5) else self.value_at("agent", at)
        if "carry" not in kind:
            return f"{self.named('agent', at)} {self.call(value)}"
        carries = [self.carried() for _ in range(self.weighed({1: 8, 2: 4, 3: 2, 8: 1}))]
        return " ".join([self.named("agent", at), f"[{self.call(value, DEEPEST - 1)}]", *carries])

    def carried(self):
        at = self.at("agent")
        return f"[{self.named('agent', at)} {self.call(self.value_at('agent', at), DEEPEST - 1)}]"

    def waiting(self):
        """The points of commits whose sends are in some queue."""
        return {it.point for agent in self.world.agents for it in agent.queue}

    def on_agents(self):
        is_failed = any(it.error for it in self.world.agents)
        is_carrying = any(it.is_carrying for it in self.world.agents)
        kind = self.weighed({
            ":send": 8, ":send-carry": 5, ":restart": 6 if is_failed else 1, ":set-error-mode": 2, ":error-of": 4 if is_failed else 1,
            ":fold": 3, ":release": 8 if self.world.held else 1, ":release-carried": 8 if is_carrying else 1,
        })  # fmt: skip
        if kind.startswith(":send"):
            return f"{kind} {self.sent(kind)}"
        if kind == ":release":
            held = sorted(self.world.held - self.waiting() or self.world.held)
            return f"{kind} {self.one(held) if held and not self.once_in(5) else self.below(self.world.point + 2)}"
        if kind == ":release-carried":
            return f"{kind} {self.named('agent', self.agent(lambda it: it.is_carrying))}"
        at = self.agent(lambda it: it.error) if kind in (":restart", ":error-of", ":fold") else self.at("agent")
        if kind == ":restart":
            return f"{kind} {self.named('agent', at)} {self.like(self.value_at('agent', at))}{self.one(('', ' :clear'))}"
        end = self.one((" :fail", " :continue")) if kind == ":set-error-mode" else ""
        return f"{kind} {self.named('agent', at)}{end}"

    def on_atoms(self):
        at = self.at("atom")
        name, value = self.named("atom", at), self.value_at("atom", at)
        kind = self.weighed({":swap": 3, ":reset": 2, ":cas": 2})
        if kind == ":swap":
            return f"{kind} {name} {self.call(value)}"
        if kind == ":reset":
            return f"{kind} {name} {self.like(value)}"
        return f"{kind} {name} {text(value) if self.once_in(2) else self.like(value)} {self.like(value)}"

    def making(self):
        kind = self.one(KINDS)
        value, rule, flag = self.form(kind)
        end = [rule or "nil", flag] if flag else [rule] if rule else ["nil"] if self.once_in(5) else []
        return " ".join([f":make-{kind}", value, *end])

    def on_references(self):
        kind = self.weighed({
            "atoms": 7, "making": 5, ":set-validator": 3, ":add-watch": 4, ":remove-watch": 1, ":value-of": 1,
            ":rule-of": 2, ":checkpoint": 2,
        })  # fmt: skip
        if kind == "atoms":
            return self.on_atoms()
        if kind == "making":
            return self.making()
        if kind == ":checkpoint":
            base = self.world.base.point
            return f"{kind} {self.below(self.world.point + 3) if self.once_in(4) else base + self.below(len(self.world.log) + 1)}"
        name, value = self.anyone()
        watched = [it for of_kind in KINDS for it in self.world.of_kind(of_kind) if it.watches]
        if kind == ":remove-watch" and watched and self.once_in(2):
            found = self.one(watched)
            return f"{kind} {self.named(found.kind, found.number)} {text(self.one(found.watches))}"
        if kind == ":set-validator":
            return f"{kind} {name} {'nil' if self.once_in(4) else self.rule(value)}"
        return f"{kind} {name} {self.key()}" if kind.endswith("watch") else f"{kind} {name}"

    def act(self, actor):
        parts = (4, 6, 3, 2) if self.of_agents else (8, 2, 1, 3)
        kind = self.weighed(dict(zip(("tx", "job", "agents", "references"), parts)))
        if kind == "tx":
            return self.in_transaction(actor)
        if kind == "job":
            return self.with_job(actor)
        return self.on_agents() if kind == "agents" else self.on_references()

    # ---- lists

    def add(self, by, act):
        """Adds an event, which the model plays."""
        event = f"({by}, {act})" if self.once_in(30) else f"[{by} {act}]"
        self.play.reply(len(self.list.events), read(event)[1], None)
        self.list.events.append(event)

    def end(self):
        """Acts that show what is open, what is held and what waits."""
        for by, actor in list(self.play.actors.items()):
            if actor.tx:
                self.add(by, ":commit")
            if actor.job:
                self.add(by, ":put-back")
        for point in sorted(self.world.held):
            self.add(3, f":release {point}")
        for it in list(self.world.agents):
            if it.is_carrying:
                self.add(3, f":release-carried {self.named('agent', it.number)}")
            if it.error:
                self.add(3, f":restart {self.named('agent', it.number)} {text(it.value)}")
        for _ in range(6):
            if self.world.ready():
                for act in (":take", ":run", ":finish"):
                    self.add(3, act)

    def draw(self, length):
        """A list of so many events, if the model, which takes the first agent that is ready, can begin; and now and then some more."""
        self.list = List(self.declare())
        self.play = Play(self.list.text())
        self.world, self.of_agents = self.play.world, self.once_in(2)
        try:
            self.play.declare()
        except Refused:
            self.list.events = ["[0 :take]"] * self.below(3)
            return self.list
        actors = [0, 1, 7, 2**32 - 1][: self.weighed({1: 2, 2: 6, 3: 5, 4: 2})]
        for _ in range(length):
            by = self.one(actors)
            self.add(by, self.act(self.play.actors.get(by)))
        if self.once_in(3):
            self.end()
        return self.list


def drawn(seed, length=None):
    """The list of a seed, with so many events or some 6 to 80, and now and then some more."""
    draws = Draws(seed)
    return draws.draw(length or 6 + draws.below(75))

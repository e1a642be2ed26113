#!/usr/bin/env python3
"""Predicts what `refrun play` prints of a list of events: a second implementation, slow and plain, written from the documents alone. It
shares no code with the program. For `drawn`, which compares the two.

usage: examples/model.py [--dump] < EVENTS    prints what `refrun play` prints, if each `:take` takes the first agent that is ready

The text has to be a list of events; what isn't ends it with Python's own words. What each part states, and where it is written:

| Part | States | Document |
|---|---|---|
| `order`, `text` | the value order, and the one text of a value | EDN.md: Values, Printing |
| `called`, and `accepts` of auditor.py | what functions give, why they refuse; predicates | WORKLOADS.md: Functions and predicates |
| `Transaction`, `Operation` | in-transaction values, outcomes of an operation, the first reason first | MODEL.md: Open transaction |
| `World.commit` | what a commit asks, in order, and what it leaves | MODEL.md: Store of refs and commit; World |
| `World.change`, `World.compare_and_set` | changes of atoms | MODEL.md: Store of atoms |
| `Agent`, calls of `World` on agents | accounts, queues, error modes, carried sends, folds | MODEL.md: Store of agents |
| `Base`, `World.checkpoint` | the replay of entries on the base | MODEL.md: Operation, entry, replay; World |
| `World.make`, `World.set_validator`, watches | references, their rules and watches | MODEL.md: What each reference has |
| `World.dump` | the dump | DUMPS.md |
| `Play` | acts, replies, the lines, the report, a start that is refused | EVENTS.md; WORKLOADS.md: The report |
| `may_lack_memory` | which replies `out-of-memory` may replace | MODEL.md: Every list of events |

Two replies of the program are followed, as no document says which one comes. `:take` may name any agent that is ready. An event whose
request for memory was refused replies `out-of-memory`, if that is allowed there, and leaves everything as it was.
"""

from __future__ import annotations

import copy
import sys
from typing import NamedTuple

sys.dont_write_bytecode = True
from auditor import FUNCTIONS, NIL, Refuses, accepts, read, word  # noqa: E402

# The most that is added to the tally in all, and that is taken from it.
MOST_BOOKED = 2**63 - 1
OUT_OF_MEMORY = "out-of-memory"


class Refused(Exception):
    """A call is refused, and changes nothing. It has the reply."""


# ---- values, as auditor.py reads them: pairs of a kind and a content

ESCAPES = {'"': r"\"", "\\": r"\\", "\n": r"\n", "\r": r"\r", "\t": r"\t", "\b": r"\b", "\f": r"\f"}


def number(content):
    return "int", content


def vector(*parts):
    return "vector", parts


def listed(forms):
    return "vector", tuple(forms)


def order(value):
    """What sorts values in the value order."""
    kind, content = value
    if kind == "word":
        if content == "nil":
            return (0,)
        if content in ("false", "true"):
            return 1, content == "true"
        return 4 if content[0] == ":" else 5, content.encode()
    if kind == "int":
        return 2, content
    if kind == "string":
        return 3, content.encode()
    if kind == "vector":
        return 6, tuple(map(order, content))
    if kind == "map":
        return 7, tuple(sorted((order(key), order(it)) for key, it in content))
    return 8, tuple(sorted(map(order, content)))


def text(value):
    """The one text of a value."""
    kind, content = value
    if kind == "string":
        return '"' + "".join(ESCAPES.get(it, it) for it in content) + '"'
    if kind == "vector":
        return "[" + " ".join(map(text, content)) + "]"
    if kind == "map":
        entries = sorted(content, key=lambda entry: order(entry[0]))
        return "{" + ", ".join(f"{text(key)} {text(it)}" for key, it in entries) + "}"
    if kind == "set":
        return "#{" + " ".join(map(text, sorted(content, key=order))) + "}"
    return str(content)


# ---- functions


ARITIES = {"inc": (0,), "dec": (0,), "assoc": (2, 4, 6, 8)}
COLLECTIONS = {"conj": ("vector", "set"), "assoc": ("map",), "dissoc": ("map",), "disj": ("set",)}


class Call(NamedTuple):
    """A function with arguments."""

    function: tuple
    args: tuple

    def forms(self):
        return self.function, listed(self.args)


def called(call, value):
    """What a function gives. It looks at the number of its arguments first, then at kinds, then at the result."""
    name = call.function[1]
    if name in ARITIES and len(call.args) not in ARITIES[name]:
        raise Refused("wrong-arity")
    if name in COLLECTIONS:
        fits, late = value[0] in COLLECTIONS[name] or (name == "assoc" and value == NIL), "too-deep"
    else:
        fits, late = all(it[0] == "int" for it in (value, *call.args)), "overflow"
    if not fits:
        raise Refused("wrong-kind")
    try:
        return FUNCTIONS[name](value, list(call.args))
    except Refuses:
        raise Refused(late) from None


def is_count(call):
    """Whether the tally may be commuted by this."""
    return call.function[1] in ("+", "-") and len(call.args) == 1 and call.args[0][0] == "int" and call.args[0][1] >= 0


# ---- actions


class Carry(NamedTuple):
    """A send that an action carries."""

    agent: int
    call: Call

    def form(self):
        return vector(number(self.agent), *self.call.forms())


class Action(NamedTuple):
    call: Call
    carries: tuple = ()

    def forms(self):
        return *self.call.forms(), listed(it.form() for it in self.carries)


class Send(NamedTuple):
    """What a transaction sends."""

    agent: int
    action: Action

    def form(self):
        return vector(number(self.agent), *self.action.forms())


class Waiting(NamedTuple):
    """An action in a queue, and what sent it: None, or the point of a commit, or the agent whose action carried it."""

    action: Action
    point: int | None = None
    carrier: int | None = None


class Job:
    """An action that an actor has taken. What came of it is None before it has run, and a value or a `Refused` then."""

    def __init__(self, agent, ended, action, state):
        self.agent, self.number, self.action, self.state = agent, ended, action, state
        self.came = None

    def run(self):
        try:
            self.came = called(self.action.call, self.state)
        except Refused as why:
            self.came = why


# ---- transactions


class Operation:
    """What is done to a ref in a transaction: `:set` with a value, `:alter` or `:commute` with a call, `:ensure`."""

    def __init__(self, name, ref, value=None, call=None):
        self.name, self.ref, self.value, self.call = name, ref, value, call
        self.answer = None

    def place(self, before):
        """The value that it makes of a value."""
        if self.name == ":set":
            return self.value
        return before if self.name == ":ensure" else called(self.call, before)

    def fits_tally(self):
        return self.name == ":ensure" or (self.name == ":commute" and is_count(self.call))

    def moves(self):
        """What it adds to the tally, and what it takes from it."""
        if self.name != ":commute":
            return 0, 0
        count = self.call.args[0][1]
        return (count, 0) if self.call.function[1] == "+" else (0, count)

    def form(self):
        what = self.call.forms() if self.call else (self.value,) if self.name == ":set" else ()
        return vector(word(self.name), number(self.ref), *what, self.answer)


class Transaction:
    """An open transaction: the values as they were when it began, with its own changes."""

    def __init__(self, world):
        self.read_point = world.point
        self.values = [it.value for it in world.refs]
        self.tally = world.tally
        self.agents = len(world.agents)
        self.done, self.sends = [], []

    def deref(self, ref):
        if ref >= len(self.values):
            raise Refused("no-such-ref")
        return self.values[ref]

    def is_commuted(self, ref):
        return any(it.ref == ref and it.name == ":commute" for it in self.done)

    def operate(self, operation):
        ref, before = operation.ref, self.deref(operation.ref)
        if operation.name in (":set", ":alter") and self.is_commuted(ref):
            raise Refused("set-after-commute")
        if ref == self.tally and not operation.fits_tally():
            raise Refused("tally-only")
        operation.answer = self.values[ref] = operation.place(before)
        self.done.append(operation)
        return operation.answer

    def require(self, ref, rule):
        if not accepts(rule, self.deref(ref)):
            raise Refused("not-met")

    def send(self, agent, action):
        if any(it >= self.agents for it in (agent, *(it.agent for it in action.carries))):
            raise Refused("no-such-agent")
        self.sends.append(Send(agent, action))

    def protected(self):
        """The refs that nobody else may have changed."""
        return sorted({it.ref for it in self.done if it.name != ":commute"})

    def touched(self):
        """The refs that it changes."""
        return sorted({it.ref for it in self.done if it.name != ":ensure"})

    def moves(self):
        """What it adds to the tally in all, and what it takes from it."""
        moved = [it.moves() for it in self.done if it.ref == self.tally]
        return sum(added for added, _ in moved), sum(taken for _, taken in moved)


# ---- entries of the log


class Commit(NamedTuple):
    actor: int
    event: int
    read_point: int
    done: list
    sends: list
    touched: list
    moves: tuple

    def form(self):
        stamp = map(number, (self.actor, self.event, self.read_point))
        return vector(word(":tx"), *stamp, listed(it.form() for it in self.done), listed(it.form() for it in self.sends))


class Change(NamedTuple):
    """A change of an atom, by a call if it was a swap."""

    atom: int
    call: Call | None
    answer: tuple

    def form(self):
        if self.call is None:
            return vector(word(":reset"), number(self.atom), self.answer)
        return vector(word(":swap"), number(self.atom), *self.call.forms(), self.answer)


class Made(NamedTuple):
    kind: str
    value: tuple

    def form(self):
        return vector(word(f":made-{self.kind}"), self.value)


class Base:
    """What the log starts from."""

    def __init__(self):
        self.point, self.refs, self.lasts, self.atoms = 0, [], [], []
        self.commits = self.added = self.taken = 0

    def step(self, entry):
        """Replays an entry."""
        self.point += 1
        if isinstance(entry, Commit):
            for done in entry.done:
                self.refs[done.ref] = done.place(self.refs[done.ref])
            for ref in entry.touched:
                self.lasts[ref] = self.point
            self.commits += 1
            self.added += entry.moves[0]
            self.taken += entry.moves[1]
        elif isinstance(entry, Change):
            self.atoms[entry.atom] = entry.answer
        elif entry.kind == "atom":
            self.atoms.append(entry.value)
        else:
            self.declare_ref(entry.value, self.point)

    def declare_ref(self, value, point=0):
        self.refs.append(value)
        self.lasts.append(point)


# ---- references


class Reference:
    """An atom, or what a ref and an agent have too."""

    def __init__(self, kind, at, value, rule):
        self.kind, self.number, self.value, self.rule, self.watches = kind, at, value, rule, []

    def check(self, value):
        if not accepts(self.rule, value):
            raise Refused("invalid")

    def change(self, value):
        """Has this value from now on. Returns the notices, as they stand behind a reply."""
        before, self.value = self.value, value
        told = (self.kind, str(self.number), text(before), text(value))
        return "".join(f" watch {text(key)} {' '.join(told)}" for key in self.watches)

    def form(self):
        return vector(self.value, self.rule)


class Ref(Reference):
    last = 0


class Agent(Reference):
    def __init__(self, at, value, rule, mode):
        super().__init__("agent", at, value, rule)
        self.mode = mode
        self.begin_account(value)
        self.queue, self.is_out, self.is_carrying = [], False, False

    def begin_account(self, state):
        self.value = self.start = state
        self.past, self.handled, self.error = 0, [], None

    def ended(self):
        """How many actions ended since the last restart."""
        return self.past + len(self.handled)

    def end_first(self, mark):
        self.is_out = False
        self.handled.append((self.queue.pop(0).action, mark))

    def finish(self, job):
        """Ends the job of its first action. Returns the notices, or is refused as the action failed; then that is kept too."""
        try:
            if isinstance(job.came, Refused):
                raise job.came
            self.check(job.came)
        except Refused as why:
            if self.mode == ":continue":
                self.end_first(":passed")
                raise Refused(f"continued {why}") from None
            self.end_first(":failed")
            self.error = str(why)
            raise Refused(f"failed {why}") from None
        self.end_first(":done")
        return self.change(job.came)

    def restart(self, state, clears):
        if self.error is None:
            raise Refused("not-failed")
        self.check(state)
        self.begin_account(state)
        if clears:
            self.queue = []

    def fold(self):
        """Whether its account could be folded."""
        if self.is_carrying:
            return False
        left = [it for it in self.handled if it[1] == ":failed"]
        self.past += len(self.handled) - len(left)
        self.start, self.handled = self.value, left
        return True

    def form(self):
        handled = listed(vector(*action.forms(), word(mark)) for action, mark in self.handled)
        queue = listed(vector(*it.action.forms()) for it in self.queue)
        status = word(":ready" if self.error is None else ":failed")
        return vector(self.start, handled, queue, self.value, status, self.rule)


# ---- the world


class World:
    Agent, Base = Agent, Base

    def __init__(self):
        self.base, self.log, self.tally = self.Base(), [], None
        self.refs, self.atoms, self.agents = [], [], []
        self.held = set()
        self.commits = self.added = self.taken = 0

    @property
    def point(self):
        return self.base.point + len(self.log)

    def of_kind(self, kind):
        return {"ref": self.refs, "atom": self.atoms, "agent": self.agents}[kind]

    def find(self, who):
        """A reference by its kind and number, or None."""
        kind, at = who
        return self.of_kind(kind)[at] if at < len(self.of_kind(kind)) else None

    def get(self, kind, at, fault=None):
        found = self.find((kind, at))
        if found is None:
            raise Refused(fault or f"no-such-{kind}")
        return found

    def make(self, kind, value, rule, flag, is_declared):
        """Makes a reference. A flag of a ref says that it is the tally, one of an agent is its error mode."""
        kept = self.of_kind(kind)
        if kind == "ref" and flag and (self.tally is not None or value[0] != "int" or value[1] < 0):
            raise Refused("bad-tally")
        if not accepts(rule, value):
            raise Refused("invalid")
        if kind == "agent":
            kept.append(self.Agent(len(kept), value, rule, flag or ":fail"))
            return
        kept.append((Ref if kind == "ref" else Reference)(kind, len(kept), value, rule))
        if kind == "ref" and flag:
            self.tally = len(kept) - 1
        if not is_declared:
            self.log.append(Made(kind, value))
        elif kind == "atom":
            self.base.atoms.append(value)
        else:
            self.base.declare_ref(value)
        if kind == "ref":
            kept[-1].last = self.point

    # -- refs

    def check_conflicts(self, tx):
        for ref in tx.protected():
            if self.refs[ref].last > tx.read_point:
                raise Refused(f"conflict {ref} {tx.read_point} {self.refs[ref].last}")

    def values_after(self, tx):
        """The values that its operations make of the latest ones, where nothing refuses them."""
        values = {it.ref: self.refs[it.ref].value for it in tx.done}
        for done in tx.done:
            try:
                values[done.ref] = done.place(values[done.ref])
            except Refused as why:
                raise Refused(f"refused {done.ref} {why}") from None
        return values

    def commit(self, tx, actor, event):
        """Returns the notices."""
        self.check_conflicts(tx)
        values = self.values_after(tx)
        for ref in tx.touched():
            if not accepts(self.refs[ref].rule, values[ref]):
                raise Refused(f"invalid {ref}")
        added, taken = tx.moves()
        if self.added + added > MOST_BOOKED or self.taken + taken > MOST_BOOKED:
            raise Refused("book-full")
        self.log.append(Commit(actor, event, tx.read_point, tx.done, tx.sends, tx.touched(), (added, taken)))
        self.commits, self.added, self.taken = self.commits + 1, self.added + added, self.taken + taken
        self.hold(tx.sends)
        return "".join(self.change_ref(ref, values[ref]) for ref in tx.touched())

    def change_ref(self, ref, value):
        self.refs[ref].last = self.point
        return self.refs[ref].change(value)

    def hold(self, sends):
        for it in sends:
            self.agents[it.agent].queue.append(Waiting(it.action, point=self.point))
            self.held.add(self.point)

    def release(self, point):
        was_held = point in self.held
        self.held.discard(point)
        return was_held

    # -- atoms

    def change(self, at, call, value=None):
        """Swaps an atom by a call, or resets it. Returns the values before and after, and the notices."""
        atom = self.get("atom", at)
        before = atom.value
        after = called(call, before) if call else value
        atom.check(after)
        self.log.append(Change(at, call, after))
        return before, after, atom.change(after)

    def compare_and_set(self, at, old, new):
        """The notices, or None if it has another value than the old one."""
        atom = self.get("atom", at)
        atom.check(new)
        return self.change(at, None, new)[2] if atom.value == old else None

    # -- agents

    def send(self, at, action):
        agent = self.get("agent", at)
        for it in action.carries:
            self.get("agent", it.agent)
        if agent.error is not None:
            raise Refused("agent-failed")
        agent.queue.append(Waiting(action))

    def is_held(self, waiting):
        return waiting.point in self.held or waiting.carrier is not None

    def is_ready(self, agent):
        is_free = agent.error is None and not agent.is_out and not agent.is_carrying
        return is_free and bool(agent.queue) and not self.is_held(agent.queue[0])

    def ready(self):
        return [it for it in self.agents if self.is_ready(it)]

    def take(self, agent):
        agent.is_out = True
        return Job(agent.number, agent.ended(), agent.queue[0].action, agent.value)

    def finish(self, job):
        """Returns the notices. Only if the action was done, what it carries goes out."""
        agent = self.agents[job.agent]
        notices = agent.finish(job)
        self.carry_out(agent, job.action.carries)
        return notices

    def carry_out(self, agent, carries):
        for it in carries:
            self.agents[it.agent].queue.append(Waiting(Action(it.call), carrier=agent.number))
            agent.is_carrying = True

    def release_carried(self, at):
        agent = self.find(("agent", at))
        if agent is None or not agent.is_carrying:
            return False
        agent.is_carrying = False
        for other in self.agents:
            other.queue = [it._replace(carrier=None) if it.carrier == at else it for it in other.queue]
        return True

    # -- what all references have

    def set_validator(self, who, rule):
        found = self.get(*who, "no-such")
        if not accepts(rule, found.value):
            raise Refused("invalid")
        found.rule = rule

    def add_watch(self, who, key):
        """Whether the key is new."""
        found = self.get(*who, "no-such")
        is_new = key not in found.watches
        if is_new:
            found.watches.append(key)
        return is_new

    def remove_watch(self, who, key):
        """Whether the key was there."""
        found = self.find(who)
        was_there = found is not None and key in found.watches
        if was_there:
            found.watches.remove(key)
        return was_there

    # -- the log

    def checkpoint(self, point):
        """How many entries went into the base."""
        if not self.base.point <= point <= self.point:
            raise Refused("no-such-point")
        count = point - self.base.point
        for entry in self.log[:count]:
            self.base.step(entry)
        del self.log[:count]
        return count

    def dump(self):
        base = self.base
        keys = {
            "added": number(self.added),
            "agents": listed(it.form() for it in self.agents),
            "atoms": listed(it.form() for it in self.atoms),
            "base-atoms": listed(base.atoms),
            "base-refs": listed(vector(value, number(last)) for value, last in zip(base.refs, base.lasts)),
            "commits": number(self.commits),
            "dump": number(3),
            "entries": listed(it.form() for it in self.log),
            "folded": vector(*map(number, (base.commits, base.added, base.taken))),
            "point": number(base.point),
            "refs": listed(it.form() for it in self.refs),
            "taken": number(self.taken),
            "tally": NIL if self.tally is None else number(self.tally),
        }
        return "map", frozenset((word(f":{key}"), value) for key, value in keys.items())


# ---- acts

# The acts that ask for memory, and the replies that `out-of-memory` may replace; no other act may say it, if it is a request that was
# refused. Of a call, only success and what it finds after its first request are replaced; what an actor lacks or has is found before.
ASKING = {
    ":begin": "point", ":ref-set": "value", ":alter": "value too-deep", ":commute": "value too-deep", ":ensure": "value",
    ":send-in-tx": "ok", ":send-carry-in-tx": "ok", ":commit": "point refused invalid book-full", ":take": "job none", ":run": "ok",
    ":finish": "changed failed continued", ":swap": "swapped too-deep invalid", ":reset": "swapped invalid", ":cas": "true false invalid",
    ":send": "ok agent-failed", ":send-carry": "ok agent-failed", ":add-watch": "true", ":make-ref": "ref", ":make-atom": "atom",
    ":make-agent": "agent", ":checkpoint": "folded",
}  # fmt: skip


def may_lack_memory(act, reply):
    """Whether `out-of-memory` may come instead of a reply, if a request for memory is refused."""
    return reply.split(" ", 1)[0] in ASKING.get(act, "").split()


class Actor:
    """What an actor has."""

    tx = job = None

    def opened(self):
        if self.tx is None:
            raise Refused("no-tx")
        return self.tx

    def taken(self, has_run=None):
        """Its job, which has run or hasn't, if it matters."""
        if self.job is None:
            raise Refused("no-job")
        if has_run is not None and has_run != (self.job.came is not None):
            raise Refused("busy")
        return self.job


def said(holds):
    return "true" if holds else "false"


def rule_of(forms):
    """A rule that stands behind a value, if one does."""
    return forms[0] if forms else NIL


def call_of(function, *args):
    return Call(function, args)


class Play:
    """A list of events, played. `told` has what the program printed, line by line, where that is to be followed."""

    World, Transaction = World, Transaction

    def __init__(self, events, told=(), follows_memory=False):
        self.parts = {key[1]: value[1] for key, value in read(events)[1]}
        self.told, self.follows_memory = told, follows_memory
        self.world, self.actors, self.names = self.World(), {}, {}
        self.declared = {kind: self.parts.get(f":{kind}s", ()) for kind in ("ref", "atom", "agent")}
        # Each act with its reply, or "start" with the reason for which it is refused.
        self.replied = []

    def declare(self):
        """Makes the declared references; is refused with the first that can't be made."""
        for kind, forms in self.declared.items():
            for at, (_, (name, value, *rest)) in enumerate(forms):
                rule = rest.pop(0) if rest and rest[0][0] == "vector" else NIL
                try:
                    self.world.make(kind, value, rule, rest[0][1] if rest else None, True)
                except Refused as why:
                    raise Refused(f"start -> {kind} {at} {why}") from None
                self.names[name] = kind, at

    def lines(self, dumps):
        """What is printed, line by line."""
        try:
            self.declare()
        except Refused as why:
            self.replied.append(("start", str(why).split(" ")[-1]))
            yield str(why)
            return
        for at, event in enumerate(self.parts.get(":events", ())):
            head = f"{at} {text(event)[1:-1]} -> "
            line = self.told[at] if at < len(self.told) else ""
            yield head + self.reply(at, event[1], line[len(head) :] if line.startswith(head) else None)
        yield from [text(self.world.dump())] if dumps else self.report()

    def report(self):
        for kind, forms in self.declared.items():
            for form, it in zip(forms, self.world.of_kind(kind)):
                status = "" if kind != "agent" else " ready" if it.error is None else " failed"
                yield f"{kind} {form[1][0][1]} {text(it.value)}{status}"
        yield f"commits {self.world.commits}"
        yield "audit ok"

    def reply(self, at, event, heard):
        """Plays an event, to which the program replied so, if anything is known of that."""
        (_, actor), (_, act), *args = event
        self.at, self.by, self.heard = at, actor, heard
        lacks = self.follows_memory and heard == OUT_OF_MEMORY
        before = copy.deepcopy((self.world, self.actors)) if lacks else None
        try:
            reply = self.act(act)(self.actors.setdefault(actor, Actor()), *args)
        except Refused as why:
            reply = str(why)
        if lacks and may_lack_memory(act, reply):
            self.world, self.actors = before
            reply = heard
        self.replied.append((act, reply))
        return reply

    def act(self, name):
        return getattr(self, "act_" + name[1:].replace("-", "_"))

    # -- names

    def who(self, form):
        """The kind and number of a reference."""
        if form[0] == "word":
            return self.names[form]
        (_, kind), (_, at) = form[1]
        return kind[1:], at

    def number(self, form):
        return self.who(form)[1]

    def carry(self, form):
        agent, *call = form[1]
        return Carry(self.number(agent), call_of(*call))

    def carrying(self, call, *carries):
        return Action(call_of(*call[1]), tuple(map(self.carry, carries)))

    # -- in a transaction

    def act_begin(self, actor):
        if actor.tx:
            raise Refused("busy")
        actor.tx = self.Transaction(self.world)
        return f"point {actor.tx.read_point}"

    def act_deref(self, actor, ref):
        return f"value {text(actor.opened().deref(self.number(ref)))}"

    def operate(self, actor, name, ref, **what):
        return f"value {text(actor.opened().operate(Operation(name, self.number(ref), **what)))}"

    def act_ref_set(self, actor, ref, value):
        return self.operate(actor, ":set", ref, value=value)

    def act_alter(self, actor, ref, *call):
        return self.operate(actor, ":alter", ref, call=call_of(*call))

    def act_commute(self, actor, ref, *call):
        return self.operate(actor, ":commute", ref, call=call_of(*call))

    def act_ensure(self, actor, ref):
        return self.operate(actor, ":ensure", ref)

    def act_require(self, actor, ref, *rule):
        actor.opened().require(self.number(ref), vector(*rule))
        return "ok"

    def act_send_in_tx(self, actor, agent, *call):
        actor.opened().send(self.number(agent), Action(call_of(*call)))
        return "ok"

    def act_send_carry_in_tx(self, actor, agent, *forms):
        actor.opened().send(self.number(agent), self.carrying(*forms))
        return "ok"

    def act_read_point(self, actor):
        return f"point {actor.opened().read_point}"

    def act_commit(self, actor):
        notices = self.world.commit(actor.opened(), self.by, self.at)
        actor.tx = None
        return f"point {self.world.point}{notices}"

    def act_abort(self, actor):
        actor.opened()
        actor.tx = None
        return "ok"

    # -- with a job

    def act_take(self, actor):
        """It takes the action of the agent that the program took, if that one is ready, and else of the first that is."""
        if actor.job:
            raise Refused("busy")
        ready = self.world.ready()
        if not ready:
            return "none"
        chosen = [it for it in ready if self.heard == f"job {it.number} {it.ended()}"]
        actor.job = self.world.take((chosen or ready)[0])
        return f"job {actor.job.agent} {actor.job.number}"

    def act_run(self, actor):
        actor.taken(has_run=False).run()
        return "ok"

    def act_finish(self, actor):
        job, actor.job = actor.taken(has_run=True), None
        return f"changed{self.world.finish(job)}"

    def act_put_back(self, actor):
        self.world.agents[actor.taken().agent].is_out = False
        actor.job = None
        return "ok"

    # -- outside of transactions

    def changed(self, before, after, notices):
        return f"swapped {text(before)} {text(after)}{notices}"

    def act_swap(self, _, atom, *call):
        return self.changed(*self.world.change(self.number(atom), call_of(*call)))

    def act_reset(self, _, atom, value):
        return self.changed(*self.world.change(self.number(atom), None, value))

    def act_cas(self, _, atom, old, new):
        notices = self.world.compare_and_set(self.number(atom), old, new)
        return "false" if notices is None else f"true{notices}"

    def act_send(self, _, agent, *call):
        self.world.send(self.number(agent), Action(call_of(*call)))
        return "ok"

    def act_send_carry(self, _, agent, *forms):
        self.world.send(self.number(agent), self.carrying(*forms))
        return "ok"

    def act_restart(self, _, agent, state, *clear):
        self.world.get("agent", self.number(agent)).restart(state, bool(clear))
        return "ok"

    def act_set_error_mode(self, _, agent, mode):
        self.world.get("agent", self.number(agent)).mode = mode[1]
        return "ok"

    def act_error_of(self, _, agent):
        found = self.world.find(self.who(agent))
        return "none" if found is None or found.error is None else found.error

    def act_fold(self, _, agent):
        found = self.world.find(self.who(agent))
        return said(found is not None and found.fold())

    def act_set_validator(self, _, name, rule):
        self.world.set_validator(self.who(name), rule)
        return "ok"

    def act_add_watch(self, _, name, key):
        return said(self.world.add_watch(self.who(name), key))

    def act_remove_watch(self, _, name, key):
        return said(self.world.remove_watch(self.who(name), key))

    def act_value_of(self, _, name):
        found = self.world.find(self.who(name))
        return "none" if found is None else f"value {text(found.value)}"

    def act_rule_of(self, _, name):
        found = self.world.find(self.who(name))
        return "none" if found is None or found.rule == NIL else f"rule {text(found.rule)}"

    def make(self, kind, value, rule, flag):
        self.world.make(kind, value, rule_of(rule), flag[0][1] if flag else None, False)
        return f"{kind} {len(self.world.of_kind(kind)) - 1}"

    def act_make_ref(self, _, value, *rest):
        return self.make("ref", value, rest[:1], rest[1:])

    def act_make_atom(self, _, value, *rest):
        return self.make("atom", value, rest[:1], rest[1:])

    def act_make_agent(self, _, value, *rest):
        return self.make("agent", value, rest[:1], rest[1:])

    def act_release(self, _, point):
        return said(self.world.release(point[1]))

    def act_release_carried(self, _, agent):
        return said(self.world.release_carried(self.number(agent)))

    def act_checkpoint(self, _, point):
        return f"folded {self.world.checkpoint(point[1])}"


def predict(events, dumps=False, told="", follows_memory=False, play=Play):
    """What the program prints of a list of events, if it printed this."""
    played = play(events, told.split("\n"), follows_memory)
    return "".join(f"{line}\n" for line in played.lines(dumps))


if __name__ == "__main__":
    sys.stdout.write(predict(sys.stdin.buffer.read().decode(), dumps="--dump" in sys.argv[1:]))

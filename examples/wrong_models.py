"""Wrong models of lists of events for `drawn --wrong`, each the model of model.py with one rule changed. The lists that are drawn have to
find each of them.
"""

from model import Agent, Base, Play, Refused, Transaction, World, accepts

WRONG = {}


def wrong(play):
    """Adds a wrong model, under its name."""
    WRONG[play.__name__] = play
    return play


def with_world(world):
    """Adds a model with a wrong world."""
    WRONG[world.__name__] = type(world.__name__, (Play,), {"World": world})


def with_transaction(transaction):
    """Adds a model with wrong transactions."""
    WRONG[transaction.__name__] = type(transaction.__name__, (Play,), {"Transaction": transaction})


def with_agent(agent):
    """Adds a model with wrong agents."""
    with_world(type(agent.__name__, (World,), {"Agent": agent}))


# ---- transactions and commits


@with_world
class commute_keeps_its_answer(World):
    """A commit gives a commuted ref the value that the transaction saw."""

    def values_after(self, tx):
        return {it.ref: it.answer for it in tx.done}


@with_transaction
class ensure_protects_nothing(Transaction):
    def protected(self):
        return sorted({it.ref for it in self.done if it.name in (":set", ":alter")})


@with_world
class conflict_compares_values(World):
    """A ref that was changed and changed back is in no conflict."""

    def check_conflicts(self, tx):
        for ref in tx.protected():
            first = next(it for it in tx.done if it.ref == ref)
            if first.name == ":ensure" and first.answer == self.refs[ref].value:
                continue
            if self.refs[ref].last > tx.read_point:
                raise Refused(f"conflict {ref} {tx.read_point} {self.refs[ref].last}")


@with_world
class conflict_with_what_was_only_ensured(World):
    """A commit moves the last changes of refs that it ensured, too."""

    def commit(self, tx, actor, event):
        notices = super().commit(tx, actor, event)
        for it in tx.done:
            self.refs[it.ref].last = self.point
        return notices


@with_transaction
class set_after_commute(Transaction):
    """A ref may be set after a commute if it was set before it."""

    def is_commuted(self, ref):
        names = [it.name for it in self.done if it.ref == ref]
        return ":commute" in names and names[0] == ":commute"


@with_world
class rule_before_commutes(World):
    """A rule is asked about the value that the transaction saw."""

    def commit(self, tx, actor, event):
        self.check_conflicts(tx)
        for ref in tx.touched():
            if not accepts(self.refs[ref].rule, tx.values[ref]):
                raise Refused(f"invalid {ref}")
        return super().commit(tx, actor, event)


@wrong
class refused_commit_ends(Play):
    """A refused commit leaves no transaction."""

    def act_commit(self, actor):
        tx, actor.tx = actor.opened(), None
        return f"point {self.world.point}{self.world.commit(tx, self.by, self.at)}" if tx else ""


@with_world
class taken_is_not_booked(World):
    """What is taken from the tally is in no book."""

    def commit(self, tx, actor, event):
        notices = super().commit(tx, actor, event)
        self.taken = 0
        return notices


@with_world
class release_frees_all(World):
    """A release frees the sends of all commits before it."""

    def release(self, point):
        was_held = super().release(point)
        self.held = {it for it in self.held if it > point}
        return was_held


@wrong
class deref_reads_the_latest(Play):
    """`:deref` returns the value that the ref has now, where the transaction changed nothing."""

    def act_deref(self, actor, ref):
        at = self.number(ref)
        if not actor.opened().done and at < len(actor.tx.values):
            actor.tx.values[at] = self.world.refs[at].value
        return super().act_deref(actor, ref)


# ---- agents


@with_world
class failed_agent_takes_sends(World):
    def send(self, at, action):
        agent = self.find(("agent", at))
        error = agent and agent.error
        if error:
            agent.error = None
        try:
            super().send(at, action)
        finally:
            if error:
                agent.error = error


@with_agent
class restart_drops_its_queue(Agent):
    def restart(self, state, clears):
        super().restart(state, True)


@with_world
class cleared_sends_are_released(World):
    """A commit whose sends a restart has cleared isn't held any more."""

    def release(self, point):
        waits = any(it.point == point for agent in self.agents for it in agent.queue)
        return super().release(point) and waits


@with_agent
class restart_counts_on(Agent):
    """A restarted agent goes on with the number of its next job."""

    def restart(self, state, clears):
        ended = self.ended()
        super().restart(state, clears)
        self.past = ended


@with_world
class failed_action_carries(World):
    """What an action carries goes out, too, if it failed."""

    def finish(self, job):
        try:
            return super().finish(job)
        except Refused:
            self.carry_out(self.agents[job.agent], job.action.carries)
            raise


@with_world
class carried_sends_come_first(World):
    """What an action carries stands before what waits."""

    def carry_out(self, agent, carries):
        super().carry_out(agent, carries)
        for it in carries:
            queue = self.agents[it.agent].queue
            queue.insert(int(self.agents[it.agent].is_out), queue.pop())


@with_world
class carrying_agent_goes_on(World):
    """An agent whose last action's sends aren't released runs its next one."""

    def is_ready(self, agent):
        is_free = agent.error is None and not agent.is_out
        return is_free and bool(agent.queue) and not self.is_held(agent.queue[0])


@with_agent
class passed_action_leaves_an_error(Agent):
    def finish(self, job):
        try:
            return super().finish(job)
        except Refused as why:
            self.error = self.error or str(why).split(" ")[1]
            raise


@with_agent
class fold_drops_failing_action(Agent):
    def fold(self):
        is_folded = super().fold()
        if is_folded:
            self.handled = []
        return is_folded


@with_agent
class fold_counts_anew(Agent):
    """A folded agent begins again with the number of its next job."""

    def fold(self):
        is_folded = super().fold()
        if is_folded:
            self.past = 0
        return is_folded


# ---- the rest


@with_world
class checkpoint_forgets_last_changes(World):
    def checkpoint(self, point):
        count = super().checkpoint(point)
        for it in self.refs:
            it.last = 0 if it.last <= point else it.last
        return count


class CommutesAsAnswered(Base):
    def step(self, entry):
        super().step(entry)
        for it in getattr(entry, "done", ()):
            self.refs[it.ref] = it.answer


@with_world
class checkpoint_folds_kept_answers(World):
    """A checkpoint gives the base what the transactions saw."""

    Base = CommutesAsAnswered


class NeverChanged(Base):
    def declare_ref(self, value, point=0):
        super().declare_ref(value)


@with_world
class made_ref_never_changed(World):
    """The last change of a ref that was made isn't the point at which it was."""

    Base = NeverChanged


@with_world
class watch_twice(World):
    """A key that is there already is added once more."""

    def add_watch(self, who, key):
        is_new = super().add_watch(who, key)
        if not is_new:
            self.find(who).watches.append(key)
        return is_new


@with_world
class equal_value_gives_no_notice(World):
    def change(self, at, call, value=None):
        before, after, notices = super().change(at, call, value)
        return before, after, "" if before == after else notices


@with_world
class compares_before_rule(World):
    """`:cas` with another old value than the atom's is false, whatever the rule says of the new one."""

    def compare_and_set(self, at, old, new):
        if self.get("atom", at).value != old:
            return None
        return super().compare_and_set(at, old, new)

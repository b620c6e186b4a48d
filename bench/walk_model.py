"""A plain model of the locks that `clof run` works under, and of their walk on one thread.

The basic locks are stepped word by word: a ticket lock, that of Mellor-Crummey and Scott, that of Craig and of Magnussen, Landin and
Hagersten, and Hemlock, each also with a count of its waiters in place of its own test. Each call answers whether it got what it is for:
`begin` and `poll` the lock, `begin_release` and `poll_release` the end of the release. `Top` and `Level` compose them as CLoF does: the
value of a low lock has a context of the lock above, which the holder takes, and which it may leave taken for the next one in its node.
"""

IDLE, KEPT, AWAY = "idle", "kept", "away"


class Basic:
    """What the basic locks have in common: the value, which is at home in the lock or with its one holder."""

    def __init__(self, value):
        """A lock with its value at home."""
        self.value, self.is_home = value, True

    def take(self):
        """Moves the value to the holder, and answers that the lock was got."""
        assert self.is_home
        self.is_home = False
        return True

    def home(self):
        """Moves the value back into the lock."""
        assert not self.is_home
        self.is_home = True


class Ticket(Basic):
    """A word for the next ticket and one for the ticket that is served."""

    def __init__(self, passes, value):
        """Nobody has drawn a ticket."""
        super().__init__(value)
        self.next, self.serving, self.tickets = 0, 0, [None] * passes

    def begin(self, own):
        """Draws a ticket."""
        self.tickets[own] = self.next
        self.next += 1
        return False

    def poll(self, own):
        """Whether the own ticket is served."""
        return self.serving == self.tickets[own] and self.take()

    def waiter(self, own):
        """Whether a ticket was drawn behind the own one."""
        return self.next != self.tickets[own] + 1

    def begin_release(self, own):
        """Serves the ticket behind the own one."""
        self.home()
        self.serving = self.tickets[own] + 1
        return True


class Mcs(Basic):
    """A tail, 0 or a pass and one, and for each pass a link to the next one and a flag on which it waits."""

    def __init__(self, passes, value):
        """The queue is empty."""
        super().__init__(value)
        self.tail, self.links, self.locked = 0, [0] * passes, [0] * passes

    def begin(self, own):
        """Joins the queue; the lock is got where nobody was there."""
        self.links[own], self.locked[own] = 0, 1
        before, self.tail = self.tail, own + 1
        if before == 0:
            return self.take()
        self.links[before - 1] = own + 1
        return False

    def poll(self, own):
        """Whether the one before has cleared the own flag."""
        return self.locked[own] == 0 and self.take()

    def waiter(self, own):
        """Whether another is at the tail."""
        return self.tail != own + 1

    def begin_release(self, own):
        """Clears the flag of the next one, or else the tail."""
        self.home()
        if self.links[own] == 0 and self.tail == own + 1:
            self.tail = 0
            return True
        return self.poll_release(own)

    def poll_release(self, own):
        """Clears the flag of the next one where it has told who it is."""
        if self.links[own] == 0:
            return False
        self.locked[self.links[own] - 1] = 0
        return True


class Clh(Basic):
    """A tail that names a node, and a flag for each node; a pass goes on with the node of the one before it."""

    def __init__(self, passes, value):
        """Each pass has the node of its number, and the tail the last one."""
        super().__init__(value)
        self.tail, self.flags = passes, [0] * (passes + 1)
        self.nodes, self.before = list(range(passes)), [None] * passes

    def begin(self, own):
        """Joins the queue behind the node at the tail."""
        self.flags[self.nodes[own]] = 1
        self.before[own], self.tail = self.tail, self.nodes[own]
        return False

    def poll(self, own):
        """Whether the flag of the node before is cleared."""
        return self.flags[self.before[own]] == 0 and self.take()

    def waiter(self, own):
        """Whether another node is at the tail."""
        return self.tail != self.nodes[own]

    def begin_release(self, own):
        """Clears the flag of the own node, and takes over the node before."""
        self.home()
        self.flags[self.nodes[own]] = 0
        self.nodes[own] = self.before[own]
        return True


class Hemlock(Basic):
    """A tail, 0 or a pass and one, and for each pass a grant that the next one takes back."""

    def __init__(self, passes, value):
        """The queue is empty."""
        super().__init__(value)
        self.tail, self.grants, self.before = 0, [0] * passes, [None] * passes

    def begin(self, own):
        """Joins the queue; the lock is got where nobody was there."""
        before, self.tail = self.tail, own + 1
        if before == 0:
            return self.take()
        self.before[own] = before - 1
        return False

    def poll(self, own):
        """Whether the one before has granted the lock; the grant is taken back."""
        if self.grants[self.before[own]] != 1:
            return False
        self.grants[self.before[own]] = 0
        return self.take()

    def waiter(self, own):
        """Whether another is at the tail."""
        return self.tail != own + 1

    def begin_release(self, own):
        """Clears the tail, or else grants the lock."""
        self.home()
        if self.tail == own + 1:
            self.tail = 0
            return True
        self.grants[own] = 1
        return self.poll_release(own)

    def poll_release(self, own):
        """Whether the grant was taken back."""
        return self.grants[own] == 0


def counted(lock):
    """The lock with one more word, which each pass raises before it enters and lowers once it has taken, and by which `waiter` answers."""

    class Counted(lock):
        """Such a lock."""

        def __init__(self, passes, value):
            """Nobody waits."""
            super().__init__(passes, value)
            self.waiting = 0

        def got(self, answer):
            """Lowers the count where the lock was got."""
            if answer:
                self.waiting -= 1
            return answer

        def begin(self, own):
            """Raises the count, and enters."""
            self.waiting += 1
            return self.got(super().begin(own))

        def poll(self, own):
            """As without the count."""
            return self.got(super().poll(own))

        def waiter(self, own):
            """Whether somebody has begun and not yet got the lock."""
            return self.waiting != 0

    return Counted


PLAIN = {"tkt": Ticket, "mcs": Mcs, "clh": Clh, "hem": Hemlock}
LOCKS = {**PLAIN, **{name + "c": counted(lock) for name, lock in PLAIN.items()}}


class Trail:
    """The turns in the order in which the root was held: [caller, climb, tests, left]."""

    def __init__(self):
        """No turn was made."""
        self.turns, self.is_open = [], False

    def open(self, caller, climb):
        """Begins a turn."""
        assert not self.is_open
        self.turns.append([caller, climb, 0, None])
        self.is_open = True

    def note(self, level, yes):
        """Notes in the open turn what was seen of waiters at a level."""
        assert self.is_open
        self.turns[-1][2] += yes << level

    def leave(self, level):
        """Closes the open turn."""
        assert self.is_open
        self.turns[-1][3], self.is_open = level, False


class Top:
    """The lock of the top level, whose value is the root."""

    def __init__(self, kind, level, contexts, trail):
        """A lock with a pass for each context."""
        self.level, self.trail, self.basic = level, trail, LOCKS[kind](contexts, "root")

    def opened(self, caller):
        """Opens the caller's turn, whose climb went to the top."""
        self.trail.open(caller, self.level)
        return True

    def begin(self, context, caller):
        """Begins to take the root."""
        return self.basic.begin(context) and self.opened(caller)

    def poll(self, context, caller):
        """Goes on taking the root."""
        return self.basic.poll(context) and self.opened(caller)

    def begin_release(self, context):
        """Closes the turn and begins to leave."""
        self.trail.leave(self.level)
        return self.basic.begin_release(context)

    def poll_release(self, context):
        """Goes on leaving."""
        return self.basic.poll_release(context)


class Own:
    """The value of a low lock: a context of the high lock, how it stands, and how often the high lock was kept in a row."""

    def __init__(self, node):
        """The high lock isn't taken; the context has the number of the node."""
        self.context, self.high, self.kept = node, IDLE, 0


class Level:
    """The locks of a level, one for each node, under the lock of the level above."""

    def __init__(self, kind, level, keep, parents, high, trail):
        """The lower context c comes to the node parents[c]; a node has a pass for each context that comes to it."""
        self.level, self.keep, self.high, self.trail = level, keep, high, trail
        nodes = range(max(parents) + 1)
        self.basics = [LOCKS[kind](parents.count(node), Own(node)) for node in nodes]
        self.places = [(self.basics[node], parents[:c].count(node)) for c, node in enumerate(parents)]
        self.above = set()  # the contexts that have their low lock while they come to the high lock or leave it

    def begin(self, context, caller):
        """Begins to take the low lock of the context's node, and goes on above where it is got."""
        basic, own = self.places[context]
        return basic.begin(own) and self.go_up(context, caller)

    def poll(self, context, caller):
        """Goes on taking the lock where the context waits, low or above."""
        basic, own = self.places[context]
        if context in self.above:
            return self.high.poll(basic.value.context, caller) and self.is_up(context)
        return basic.poll(own) and self.go_up(context, caller)

    def go_up(self, context, caller):
        """With the low lock taken: opens the turn where the high lock was kept, else begins to take it."""
        value = self.places[context][0].value
        if value.high == KEPT:
            self.trail.open(caller, self.level)
            return True
        value.high = AWAY
        self.above.add(context)
        return self.high.begin(value.context, caller) and self.is_up(context)

    def is_up(self, context):
        """With the high lock taken too."""
        value = self.places[context][0].value
        value.high, value.kept = KEPT, 0
        self.above.remove(context)
        return True

    def begin_release(self, context):
        """Hands the high lock on inside the node where one waits and the keep isn't used up, else leaves it first."""
        basic, own = self.places[context]
        value, yes = basic.value, basic.waiter(own)
        self.trail.note(self.level, yes)
        if yes and value.kept < self.keep:
            value.kept += 1
            self.trail.leave(self.level)
            return basic.begin_release(own)
        value.high = AWAY
        self.above.add(context)
        return self.high.begin_release(value.context) and self.go_down(context)

    def poll_release(self, context):
        """Goes on leaving where the context leaves, above or low."""
        basic, own = self.places[context]
        if context in self.above:
            return self.high.poll_release(basic.value.context) and self.go_down(context)
        return basic.poll_release(own)

    def go_down(self, context):
        """With the high lock left: begins to leave the low one."""
        basic, own = self.places[context]
        basic.value.high = IDLE
        self.above.remove(context)
        return basic.begin_release(own)


def made_lock(paths, kinds, keeps, trail):
    """The composed lock of these kinds, lowest first; paths[w][k] is the node of caller w at level k."""
    top = len(keeps)
    under = [list(range(len(paths)))] + [[path[level] for path in paths] for level in range(top)]
    lock = Top(kinds[top], top, max(under[top]) + 1, trail)
    for level in reversed(range(top)):
        parent_of = {path_under: paths[w][level] for w, path_under in enumerate(under[level])}
        parents = [parent_of[context] for context in range(len(parent_of))]
        lock = Level(kinds[level], level, keeps[level], parents, lock, trail)
    return lock


class Caller:
    """A caller of the walk, with the number of commands that it still has."""

    def __init__(self, number, quota):
        """It stands outside, and has all its commands."""
        self.number, self.quota, self.step = number, quota, self.idle

    def idle(self, lock, _):
        """Comes to the lock where it has a command."""
        if self.quota:
            self.step = self.holding if lock.begin(self.number, self.number) else self.queued

    def queued(self, lock, _):
        """Looks whether it holds by now."""
        if lock.poll(self.number, self.number):
            self.step = self.holding

    def holding(self, lock, apply):
        """Has its next command applied, and begins to leave."""
        apply(self.number)
        self.quota -= 1
        self.step = self.idle if lock.begin_release(self.number) else self.leaving

    def leaving(self, lock, _):
        """Looks whether it has left by now."""
        if lock.poll_release(self.number):
            self.step = self.idle


def walk(lock, quotas, apply):
    """Steps the callers in rounds, in ascending order, until each is outside without a command; `apply` is told who holds."""
    callers = [Caller(number, quota) for number, quota in enumerate(quotas)]
    while any(caller.quota or caller.step != caller.idle for caller in callers):
        for caller in callers:
            caller.step(lock, apply)


def walked_turns(paths, kinds, keeps, quotas):
    """The turns of a walk."""
    trail, held = Trail(), []
    walk(made_lock(paths, kinds, keeps, trail), quotas, held.append)
    assert not trail.is_open and held == [turn[0] for turn in trail.turns]
    return trail.turns

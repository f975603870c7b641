"""Changes that are planted into the record of an event, each of which has to be refused. Those that are `outside` have to be refused by
the bounds of authority alone; the others are within them, but not what the event does."""

import functools
import operator

from account import ACK, COPY, MAP, MEMORY, MINT, MOVE, NB_RECV, NB_SEND, RETYPE, REVOKE, Deed
from calls import A0, A1, WORDS
from rules import ENDPOINT, FRAME, NOTIFICATION, UNTYPED
from seen import EMPTY, READ, WRITE, Wrong

PLANTS = {}
# a register that no program of the systems here writes, and that no message has
UNUSED = 9
# instructions that are no system call
PLAIN = ("load", "store", "branch", "jal", "alu", "upper")


def plant(name, outside=True):
    """Names a function that gives an altered record of an event, or None where there is no place for it."""
    def keep(function):
        PLANTS[name] = outside, function
        return function
    return keep


def otherwise(name, outside=True):
    """Names a function that answers how an account from before an event is to be changed, or None where there is no place for it. Queues,
    lists, masks and slices are in no record: they are seen where the event then does something else, and so is the plant's record."""
    def keep(function):
        PLANTS[name] = outside, lambda scene: scene.otherwise(function(scene), outside)
        return function
    return keep


class Scene:
    """An event: the account before it and after it, what was seen before it, what it does, and what its record says has changed."""

    def __init__(self, account, before, event, deed, label, changes):
        self.account, self.before, self.event, self.view = account, before, event, account.view
        before.view = self.view
        self.deed, self.label, self.changes = deed, label, changes
        self.thread, self.threads = deed.thread, list(account.threads.values())
        self.invoked, self.slot = deed.invokes or (None, None)

    def seen_of(self, wanted):
        """What is seen to change where a deed wants something."""
        return {key: (self.view.now(key), new) for key, new in wanted.items() if self.view.now(key) != new}

    def otherwise(self, change, outside):
        """The record of the event, had the account been another before it. One that lies outside has to change something."""
        if not change:
            return None
        account = self.before.copy()
        change(account)
        try:
            deed = account.follow(self.view, self.event)
        except Wrong:
            return None
        changes = self.seen_of(deed.wanted)
        is_seen = changes if outside else True
        return (deed.label, changes) if is_seen and (deed.label, changes) != (self.label, self.changes) else None

    def besides(self, does):
        """The record with what something else changes of other threads."""
        deed, account = Deed(self.thread), self.before.copy()
        does(account, deed)
        own = self.thread and self.thread.tcb
        others = {key: it for key, it in self.seen_of(deed.wanted).items() if key[1] != own and key not in self.changes}
        return (self.label, {**self.changes, **others}) if others else None

    def put(self, key, new):
        """The record with another value there."""
        old = self.view.now(key)
        rest = {it: change for it, change in self.changes.items() if it != key}
        return None if old == new and key not in self.changes else (self.label, rest if old == new else {**rest, key: (old, new)})

    def new(self, key):
        return self.changes[key][1] if key in self.changes else self.view.now(key)

    def more(self, key, by=4):
        """The record with a number that is greater."""
        return self.put(key, self.new(key) + by & 2**32 - 1)

    def without(self, key):
        return self.label, {it: change for it, change in self.changes.items() if it != key}

    def first(self, kind, test=lambda key, old, new: True):
        """The first change of a kind that passes a test."""
        return next((key for key, (old, new) in self.changes.items() if key[0] == kind and test(key, old, new)), None)

    def bystander(self):
        return next((it for it in self.threads if it is not self.thread and it.tcb not in self.deed.reached), None)

    def reached(self, number=0):
        """Another thread that is reached, and gets this register."""
        found = (it for it in self.threads if it is not self.thread and number in self.deed.reached.get(it.tcb, ()))
        return next(found, None)

    def own_capabilities(self):
        return [it for slot, (it, _) in self.view.slots.items() if self.thread and slot[0] in self.thread.cnodes]

    def own_slot(self, full):
        """A slot of the thread's CNodes that is full, or empty, and stays so."""
        node = min(self.thread.cnodes)
        slots = [(node, index) for index in range(16) if ("slot", node, index) not in self.changes]
        return next((it for it in slots if (it in self.view.slots) == full), None)

    def copied(self, test):
        """A slot that a Copy or a Mint filled, whose capability passes a test."""
        return self.invoked in (COPY, MINT) and self.first("slot", lambda key, old, new: old == EMPTY and test(new[0]))

    def with_capability(self, key, change):
        """The record with another capability in a slot."""
        if not key:
            return None
        capability, parent = self.new(key)
        return self.put(key, (change(capability), parent))

    def delivered(self):
        """The buffers of a delivery of more words than registers take, and how many words it has."""
        for sender, receiver, length in self.deed.copied:
            if length > 8:
                return self.account.buffer(sender), self.account.buffer(receiver), length
        return None


def detail(capability, at, new):
    return *capability[:at], new, *capability[at + 1:]


# ---- registers


@plant("a register of a bystander")
def _(s):
    it = s.bystander()
    return it and s.more(("reg", it.tcb, 5))


@plant("a bystander goes on")
def _(s):
    it = s.bystander()
    return it and s.more(("reg", it.tcb, 0))


@plant("a register of who is reached that no message has")
def _(s):
    it = s.reached()
    return it and s.more(("reg", it.tcb, UNUSED))


@plant("another badge for who is reached", outside=False)
def _(s):
    it = s.reached(A0)
    return it and s.more(("reg", it.tcb, A0))


@plant("a word more than the message has")
def _(s):
    it = s.reached(A1)
    free = it and [word for word in WORDS if word not in s.deed.reached[it.tcb]]
    return s.more(("reg", it.tcb, free[0])) if free else None


@plant("another word of the message", outside=False)
def _(s):
    it = s.reached(WORDS[0])
    return it and s.more(("reg", it.tcb, WORDS[0]), 1)


@plant("another length of the message", outside=False)
def _(s):
    it = s.reached(A1)
    return it and s.more(("reg", it.tcb, A1), 1)


@plant("who is reached sleeps on", outside=False)
def _(s):
    it = s.reached()
    return it and s.without(("reg", it.tcb, 0))


@plant("who is reached goes on elsewhere")
def _(s):
    it = s.reached()
    return it and s.more(("reg", it.tcb, 0))


@plant("a sender whose message is taken gets a badge")
def _(s):
    it = s.reached()
    return s.more(("reg", it.tcb, A0)) if it and "message from who waits" in s.deed.kinds and A0 not in s.deed.reached[it.tcb] else None


@plant("another register of the thread itself", outside=False)
def _(s):
    return s.thread and s.more(("reg", s.thread.tcb, UNUSED))


@plant("another result", outside=False)
def _(s):
    key = s.thread and s.first("reg", lambda key, old, new: key[1] == s.thread.tcb and key[2])
    return key and s.more(key)


@plant("the thread goes on elsewhere", outside=False)
def _(s):
    return s.thread and s.more(("reg", s.thread.tcb, 0))


@plant("an error where the call is done", outside=False)
def _(s):
    return s.put(("reg", s.thread.tcb, A1), 3 << 12) if s.invoked and "invoked by Call" in s.deed.kinds else None


# ---- slots


@plant("a slot of a neighbour is emptied")
def _(s):
    it = s.thread and s.bystander()
    slot = it and next((slot for slot in s.view.slots if slot[0] in it.cnodes), None)
    return slot and s.put(("slot", *slot), EMPTY)


@plant("a slot of a neighbour is filled")
def _(s):
    it, own = s.thread and s.bystander(), s.thread and s.own_slot(True)
    free = it and own and next(((node, 15) for node in it.cnodes if (node, 15) not in s.view.slots), None)
    return free and s.put(("slot", *free), (s.view.held(own), own))


@plant("a slot of the boot CNode is emptied")
def _(s):
    return s.put(("slot", 0, 0), EMPTY)


@plant("the root table of the thread goes")
def _(s):
    return s.thread and s.put(("slot", s.thread.tcb, 1), EMPTY)


@plant("the buffer of a thread goes")
def _(s):
    it = next((it for it in s.threads if s.account.buffer(it)), None)
    return it and s.put(("slot", it.tcb, 2), EMPTY)


@plant("a line is bound to nothing")
def _(s):
    slot = next((it for it in s.view.slots if it[0] == s.account.lines), None)
    return slot and s.put(("slot", *slot), EMPTY)


@plant("a line that is bound to nothing is bound")
def _(s):
    bound = [it for it in s.view.slots if it[0] == s.account.lines]
    return s.put(("slot", s.account.lines, 63), s.view.slots[bound[0]]) if bound else None


@plant("a right more")
def _(s):
    # to read an endpoint or a frame that is held to write, or to write a frame that is held to read
    rights = {ENDPOINT: 2, NOTIFICATION: 8, FRAME: 3}
    has_all = lambda it: any(held[:2] == it[:2] and held[2] & rights[it[0]] == rights[it[0]] for held in s.own_capabilities())
    return s.with_capability(s.copied(lambda it: not has_all(it)), lambda it: detail(it, 2, it[2] | rights[it[0]]))


@plant("another badge in a copy")
def _(s):
    plain = {it[:2] for it in s.own_capabilities() if it[0] in (ENDPOINT, NOTIFICATION) and it[3] == 0}
    return s.with_capability(s.copied(lambda it: it[0] != FRAME and it[:2] not in plain), lambda it: detail(it, 3, it[3] ^ 1))


@plant("a capability to an object of another thread")
def _(s):
    held = {it[:2] for it in s.own_capabilities()}
    others = [it[1] for it, _ in s.view.slots.values() if it[0] == ENDPOINT and it[:2] not in held]
    return others and s.with_capability(s.copied(lambda it: it[0] == ENDPOINT), lambda it: detail(it, 1, others[0])) or None


@plant("derived from a slot of a neighbour")
def _(s):
    key, it = s.copied(lambda it: True), s.bystander()
    return s.put(key, (s.new(key)[0], (min(it.cnodes), 5))) if key and it else None


@plant("a wrong index", outside=False)
def _(s):
    key = s.copied(lambda it: True)
    free = key and next((("slot", key[1], it) for it in range(16) if s.new(("slot", key[1], it)) == EMPTY), None)
    if not free:
        return None
    label, changes = s.without(key)
    return label, {**changes, free: (EMPTY, s.new(key))}


@plant("more memory is used", outside=False)
def _(s):
    key = s.invoked == RETYPE and ("slot", *s.slot)
    return s.with_capability(key, lambda it: detail(it, 3, it[3] - 16)) if key and s.new(key)[0][3] - 16 > s.view.held(s.slot)[3] else None


@plant("memory is whole again under what was made of it")
def _(s):
    pools = {slot: it for slot, (it, _) in s.view.slots.items() if s.thread and slot[0] in s.thread.cnodes and it[0] == UNTYPED and it[3]}
    slot = s.invoked in (COPY, MAP) and next((it for it in pools if any(parent == it for _, parent in s.view.slots.values())), None)
    return s.with_capability(("slot", *slot), lambda it: detail(it, 3, 0)) if slot else None


@plant("a new object outside of the memory")
def _(s):
    other = s.thread and s.bystander()
    key = s.invoked == RETYPE and other and s.first("slot", lambda key, old, new: new[0][0] == FRAME)
    return s.with_capability(key, lambda it: detail(it, 1, s.view.pages()[other.root, 1][0])) if key else None


def mapped(s):
    key = s.invoked == MAP and ("slot", *s.slot)
    return key or None


@plant("a mapping with the right to execute")
def _(s):
    return s.with_capability(mapped(s), lambda it: detail(it, 3, detail(it[3], 2, it[3][2] | 4)))


@plant("a mapping with a right to write that was not asked for")
def _(s):
    key = mapped(s)
    return s.with_capability(key, lambda it: detail(it, 3, detail(it[3], 2, 3))) if key and s.new(key)[0][3][2] == 2 else None


@plant("a mapping under another root table")
def _(s):
    other = s.bystander()
    return s.with_capability(mapped(s), lambda it: detail(it, 3, detail(it[3], 0, other.root))) if other else None


@plant("a mapping at another page", outside=False)
def _(s):
    return s.with_capability(mapped(s), lambda it: detail(it, 3, detail(it[3], 1, it[3][1] + 9)))


@plant("a slot below is left by a Revoke", outside=False)
def _(s):
    key = s.invoked == REVOKE and s.first("slot", lambda key, old, new: new == EMPTY)
    return s.without(key) if key else None


@plant("a Revoke empties a slot more", outside=False)
def _(s):
    slot = s.invoked == REVOKE and s.own_slot(True)
    return s.put(("slot", *slot), EMPTY) if slot else None


@plant("a Revoke empties a slot of another thread")
def _(s):
    it = s.invoked == REVOKE and s.bystander()
    slot = it and next((slot for slot in s.view.slots if slot[0] in it.cnodes), None)
    return s.put(("slot", *slot), EMPTY) if slot else None


@plant("a child of what moves stays behind", outside=False)
def _(s):
    key = s.invoked == MOVE and s.first("slot", lambda key, old, new: old != EMPTY and new != EMPTY)
    return s.without(key) if key else None


@plant("a capability out of nothing")
def _(s):
    slot = s.thread and s.own_slot(False)
    return slot and s.put(("slot", *slot), (s.view.held((0, 0)), (0, 0)))


@plant("a slot of the thread goes without an invocation")
def _(s):
    slot = s.thread and not s.invoked and s.own_slot(True)
    return s.put(("slot", *slot), EMPTY) if slot else None


# ---- bytes


def code_of(s, thread):
    """A byte of a thread's code."""
    return s.view.pages()[thread.root, 1][0] + 64


@plant("a byte of another thread's code")
def _(s):
    it = s.bystander()
    return it and s.put(("byte", code_of(s, it)), s.view.bytes[code_of(s, it)] ^ 1)


@plant("a byte of the thread's own code")
def _(s):
    return s.thread and s.put(("byte", code_of(s, s.thread)), s.view.bytes[code_of(s, s.thread)] ^ 1)


@plant("a byte of the thread's own code goes")
def _(s):
    return s.thread and s.put(("byte", code_of(s, s.thread)), None)


@plant("a byte appears where no frame is")
def _(s):
    return s.put(("byte", s.threads[0].tcb), 0)


@plant("a byte behind those of a store")
def _(s):
    place = s.deed.stored and max(s.deed.stored) + 1
    return s.put(("byte", place), s.view.bytes[place] ^ 1) if place and place % 4096 else None


@plant("a store to another frame")
def _(s):
    it = s.deed.stored and s.bystander()
    return s.put(("byte", code_of(s, it)), 7) if it else None


@plant("another byte is stored", outside=False)
def _(s):
    place = s.deed.stored and s.deed.stored[0]
    return s.put(("byte", place), s.new(("byte", place)) ^ 1) if place else None


@plant("a byte of a new frame is not 0")
def _(s):
    key = s.invoked == RETYPE and s.first("byte")
    return s.put(key, 1) if key else None


@plant("a byte of a frame that ends stays", outside=False)
def _(s):
    key = s.first("byte", lambda key, old, new: new is None)
    return s.without(key) if key else None


@plant("a byte of a frame that stays goes with a Revoke")
def _(s):
    return s.put(("byte", code_of(s, s.thread)), None) if s.invoked == REVOKE else None


@plant("a byte behind the length of a message")
def _(s):
    found = s.delivered()
    return found and s.put(("byte", found[1] + 4 * found[2]), s.view.bytes[found[1] + 4 * found[2]] ^ 1)


@plant("a byte of the words that are in registers")
def _(s):
    found = s.delivered()
    return found and s.put(("byte", found[1] + 31), s.view.bytes[found[1] + 31] ^ 1)


@plant("a byte of a buffer from 480 on")
def _(s):
    found = s.delivered()
    return found and s.put(("byte", found[1] + 500), s.view.bytes[found[1] + 500] ^ 1)


@plant("another byte is delivered")
def _(s):
    found = s.delivered()
    key = found and ("byte", found[1] + 32)
    return key and s.put(key, next(it for it in range(3) if it not in (s.view.now(key), s.new(key))))


@plant("a byte of the sender's buffer")
def _(s):
    found = s.delivered()
    return found and s.put(("byte", found[0] + 36), s.view.bytes[found[0] + 36] ^ 1)


@plant("a byte of a message is missing")
def _(s):
    key = s.delivered() and s.first("byte")
    return s.without(key) if key else None


@plant("a buffer gets words of a message in registers")
def _(s):
    it = s.reached(A1)
    target = it and not s.delivered() and s.account.buffer(it)
    return s.put(("byte", target + 32), s.view.bytes[target + 32] ^ 1) if target else None


# ---- events


@plant("another thread ran", outside=False)
def _(s):
    return s.thread and (f"{int(s.label[:8], 16) + 512:08x}{s.label[8:]}", s.changes)


@plant("another outcome", outside=False)
def _(s):
    return s.thread and (f"{s.label[:18]}error 3", s.changes)


@plant("a tick changes a register")
def _(s):
    return s.more(("reg", s.threads[-1].tcb, 5)) if s.label == "tick" else None


@plant("a tick lets a thread go on")
def _(s):
    it = s.account.current()
    return s.more(("reg", it.tcb, 0)) if it and s.label == "tick" else None


@plant("an interrupt wakes who waits for something else")
def _(s):
    waiting = [it for queue in s.account.receivers.values() for it in queue]
    if not s.label.startswith("irq") or not waiting:
        return None
    label, changes = s.more(("reg", waiting[0].tcb, 0))
    return label, {**changes, ("reg", waiting[0].tcb, A0): (s.view.now(("reg", waiting[0].tcb, A0)), 0x7777)}


@plant("another badge of an interrupt", outside=False)
def _(s):
    it = s.label.startswith("irq") and s.reached(A0)
    return s.more(("reg", it.tcb, A0), 1) if it else None


@plant("an interrupt writes a byte")
def _(s):
    return s.put(("byte", code_of(s, s.threads[0])), 0x55) if s.label.startswith("irq") else None


@plant("another line", outside=False)
def _(s):
    return (f"irq {int(s.label[4:]) + 1}", s.changes) if s.label.startswith("irq") else None


@plant("another value before", outside=False)
def _(s):
    key = s.first("reg")
    old, new = s.changes.get(key, (0, 0))
    return (s.label, {**s.changes, key: (old ^ 2**31, new)}) if key and new != old ^ 2**31 else None


def named(s):
    """The capability that a0 names."""
    return s.view.held(s.view.lookup(s.thread.tcb, s.account.register(s.thread, A0)))


# ---- interrupts and lines


def raised(s):
    """The line of an interrupt."""
    return int(s.label.split()[1])


def came_of(s, kind):
    """The notification and the badge of an interrupt's line, if this came of it."""
    held = s.label.startswith("irq") and kind in s.deed.kinds and s.view.held((s.account.lines, raised(s)))
    return (held[1], held[3]) if held else (None, None)


def may_wait_at(s, place):
    """The threads with a capability to a notification: those that are ready, and the others."""
    nodes = {slot[0] for slot, (held, _) in s.view.slots.items() if held[:2] == (NOTIFICATION, place)}
    found = [it for it in s.threads if it.cnodes & nodes]
    return [it for it in found if it in s.before.ready], [it for it in found if it not in s.before.ready]


@otherwise("an interrupt wakes who runs already")
def _(s):
    # it was woken there and is in the queue still
    place, _ = came_of(s, "interrupt is kept")
    ready = place and may_wait_at(s, place)[0]
    return ready and (lambda account: account.receivers.update({place: ready[:1]}))


@otherwise("an interrupt wakes who waits somewhere else by now")
def _(s):
    place, _ = came_of(s, "interrupt is kept")
    others = place and may_wait_at(s, place)[1]
    return others and (lambda account: account.receivers.update({place: others[:1]}))


@plant("an interrupt wakes two")
def _(s):
    place, badge = came_of(s, "interrupt wakes")
    if not place or len(s.before.receivers[place]) < 2:
        return None
    return s.besides(lambda account, deed: (account.receivers[place].pop(0), account.signal(deed, place, badge, "interrupt")))


@otherwise("an interrupt wakes the second that waits")
def _(s):
    place, _ = came_of(s, "interrupt wakes")
    return place and len(s.before.receivers[place]) > 1 and (lambda account: account.receivers[place].reverse())


@otherwise("an interrupt wakes nobody, and is lost", outside=False)
def _(s):
    return came_of(s, "interrupt wakes")[0] and (lambda account: account.masked.add(raised(s)))


@otherwise("an interrupt is delivered again while its line is held back")
def _(s):
    return came_of(s, "line held back")[0] and (lambda account: account.masked.discard(raised(s)))


def acknowledged(s):
    """The line that a call acknowledges."""
    return s.view.held(s.slot)[2] if s.invoked == ACK else None


@otherwise("an Ack of a line that was held back signals nobody", outside=False)
def _(s):
    wakes = s.invoked == ACK and "interrupt wakes" in s.deed.kinds
    return wakes and (lambda account: account.pending.discard(acknowledged(s)))


@otherwise("an Ack of a line that was not held back signals")
def _(s):
    free = s.invoked == ACK and "Ack of a line that was held back" not in s.deed.kinds
    return free and (lambda account: account.pending.add(acknowledged(s)))


def lost_word(s, giver):
    """A word is taken without the badges that this gave it."""
    place = "word taken" in s.deed.kinds and named(s)[1]
    left = [badge for by, badge in s.before.kept.get(place, []) if by != giver]
    word = functools.reduce(operator.or_, left, 0)
    return place and word != s.before.words[place] and (lambda account: account.words.update({place: word}))


@otherwise("the word of an interrupt for which nobody waited is lost", outside=False)
def _(s):
    return lost_word(s, "interrupt")


@otherwise("the word of an Ack of a line that was held back is lost", outside=False)
def _(s):
    return lost_word(s, "Ack")


@otherwise("the word of a signal for which nobody waited is lost", outside=False)
def _(s):
    return lost_word(s, "signal")


def without_word(s):
    """The notification of which a thread takes no word, since none is there."""
    asks = s.thread and any(it in s.deed.kinds for it in ("waits for a signal", "nothing to receive"))
    held = asks and named(s)
    return held[1] if held and held[0] == NOTIFICATION else None


@otherwise("a word is taken twice", outside=False)
def _(s):
    place = without_word(s)
    return place in s.before.taken and (lambda account: account.words.update({place: s.before.taken[place]}))


@otherwise("a signal that nobody gave is taken", outside=False)
def _(s):
    place = without_word(s)
    return place and (lambda account: account.words.update({place: 0x40}))


# ---- whose turn it is


def first_again(account, thread):
    """The thread is the first in the list of its priority."""
    account.ready = [thread, *(it for it in account.ready if it is not thread)]


def beside(s, threads):
    """The first of these that is ready at the priority of the thread that runs, and is not this one."""
    return s.thread and next((it for it in threads if it in s.before.ready and it.priority == s.thread.priority and it is not s.thread), None)


def sleeps_on(s, name, alone):
    """Who runs for the first time since such an event put it into the list of the ready is in none: another one runs, or nobody."""
    others = [it for it in s.before.ready if it is not s.thread]
    is_first = s.thread and s.before.queued.get(s.thread) == name
    return is_first and alone != bool(others) and (lambda account: account.ready.remove(s.thread))


@otherwise("who was woken by a step does not run, but another one")
def _(s):
    return sleeps_on(s, "step", False)


@otherwise("who was woken by an interrupt does not run, but another one")
def _(s):
    return sleeps_on(s, "irq", False)


@otherwise("whose slice a tick ended runs no more, but another one")
def _(s):
    return sleeps_on(s, "tick", False)


@otherwise("who was woken by a step does not run, and nobody does", outside=False)
def _(s):
    return sleeps_on(s, "step", True)


@otherwise("who was woken by an interrupt does not run, and nobody does", outside=False)
def _(s):
    return sleeps_on(s, "irq", True)


@otherwise("whose slice a tick ended runs no more, and nobody does", outside=False)
def _(s):
    return sleeps_on(s, "tick", True)


@otherwise("who was woken runs before those that were ready")
def _(s):
    it = beside(s, [it for it, name in s.before.queued.items() if name != "tick"])
    return it and (lambda account: first_again(account, it))


@otherwise("whose slice a tick ended runs before those that were ready")
def _(s):
    it = beside(s, [it for it, name in s.before.queued.items() if name == "tick"])
    return it and (lambda account: first_again(account, it))


def ticks(s):
    """The ticks from the last step on."""
    return [deed for deed in s.before.since if deed.label == "tick"]


@otherwise("a tick ends a slice too early")
def _(s):
    goes_on = s.thread and ticks(s) and all(deed.ended is None for deed in ticks(s)) and s.before.since[0].thread is s.thread
    return goes_on and beside(s, s.before.ready) and (lambda account: (account.ready.remove(s.thread), account.ready.append(s.thread)))


@otherwise("a tick ends a slice too late")
def _(s):
    it = beside(s, [deed.ended for deed in ticks(s) if deed.ended])
    return it and (lambda account: first_again(account, it))


@otherwise("who yields runs on")
def _(s):
    it = s.before.since and "Yield" in s.before.since[0].kinds and beside(s, [s.before.since[0].thread])
    return it and (lambda account: first_again(account, it))


# ---- who joins a queue, and what is no call


def rests(s, kinds):
    """Whose last step made it wait so, if it would be the next to run."""
    last = s.before.since[0] if s.event == "step" and s.before.since else None
    waits = last and last.thread and last.thread not in s.before.ready and any(it in last.kinds for it in kinds)
    return last.thread if waits and (s.thread is None or last.thread.priority >= s.thread.priority) else None


@otherwise("who joined a queue runs on", outside=False)
def _(s):
    it = rests(s, ("waits to send", "waits to receive", "waits for a signal"))
    return it and (lambda account: first_again(account, it))


@otherwise("who waits for an answer runs on", outside=False)
def _(s):
    it = rests(s, ("Call",))
    return it and (lambda account: first_again(account, it))


@plant("who joined a queue goes on after its call", outside=False)
def _(s):
    return s.more(("reg", s.thread.tcb, 0)) if any(it.startswith("waits ") for it in s.deed.kinds) else None


def named_by_plain(s):
    """The capability that a0 names while an instruction runs that is no system call."""
    if s.deed.kinds[0] not in PLAIN:
        return None
    try:
        return named(s)
    except Wrong:
        return None


@otherwise("who ran a plain instruction does not run on, but another one")
def _(s):
    last = s.before.since[0] if s.thread and s.before.since else None
    waits = last and last.thread is s.thread and last.kinds[0] in PLAIN and len(s.before.ready) > 1
    return waits and (lambda account: account.ready.remove(s.thread))


@plant("a plain instruction wakes who waits")
def _(s):
    held = named_by_plain(s)
    waits = held and held[0] in (ENDPOINT, NOTIFICATION) and held[2] & WRITE and s.before.receivers.get(held[1])
    return s.besides(lambda account, deed: account.send(deed, s.thread, NB_SEND, held)) if waits else None


@plant("a plain instruction takes the message of who waits")
def _(s):
    held = named_by_plain(s)
    waits = held and held[0] == ENDPOINT and held[2] & READ and s.before.senders.get(held[1])
    return s.besides(lambda account, deed: account.receive(deed, s.thread, NB_RECV, held)) if waits else None


@plant("a plain instruction answers who waits")
def _(s):
    return s.besides(lambda account, deed: account.reply(deed, s.thread)) if named_by_plain(s) and s.thread in s.before.callers else None


# ---- who gets a message


def ends(s, kind, does):
    """Somebody that waits elsewhere gets something of an object that ends."""
    it = s.invoked and kind in s.deed.kinds and next((it for it in s.threads if it not in s.before.ready), s.bystander())
    return s.besides(lambda account, deed: (does(account, deed, it), account.passes(deed, it))) if it else None


@plant("who waits gets a message from an endpoint that ends")
def _(s):
    return ends(s, "endpoint ends", lambda account, deed, it: account.deliver(deed, s.thread, it, 7, ""))


@plant("who waits gets the word of a notification that ends")
def _(s):
    return ends(s, "notification ends", lambda account, deed, it: deed.set(it, A0, 7))


def queue_of(s, kind, queues):
    """Where the call takes the first of a queue that has more."""
    place = kind in s.deed.kinds and named(s)[1]
    return place if len(queues.get(place, ())) > 1 else None


@otherwise("not the first receiver gets the message")
def _(s):
    place = queue_of(s, "message to who waits", s.before.receivers)
    return place and (lambda account: account.receivers[place].reverse())


@otherwise("not the first sender's message is taken", outside=False)
def _(s):
    place = queue_of(s, "message from who waits", s.before.senders)
    return place and (lambda account: account.senders[place].reverse())


def owed_nothing(s):
    """A thread that waits, and not for an answer of the thread that runs."""
    caller = s.before.callers.get(s.thread)
    return next((it for it in s.threads if it not in s.before.ready and it is not caller), None)


@otherwise("who is owed no answer gets one")
def _(s):
    it = "nobody to answer" in s.deed.kinds and owed_nothing(s)
    return it and (lambda account: account.callers.update({s.thread: it}))


@otherwise("another one gets the answer")
def _(s):
    it = "message as an answer" in s.deed.kinds and owed_nothing(s)
    return it and (lambda account: account.callers.update({s.thread: it}))


@otherwise("an answer is lost", outside=False)
def _(s):
    return "message as an answer" in s.deed.kinds and (lambda account: account.callers.pop(s.thread))


@plant("all bytes from the ninth word on are missing")
def _(s):
    found = s.delivered()
    left = {it: change for it, change in s.changes.items() if it[0] != "byte"}
    return (s.label, left) if found and len(left) < len(s.changes) else None


@plant("the last word of a message is missing")
def _(s):
    found = s.delivered()
    last = {("byte", found[1] + 4 * found[2] - it) for it in range(1, 5)} if found else set()
    return (s.label, {it: change for it, change in s.changes.items() if it not in last}) if last & set(s.changes) else None


# ---- the world outside


def word_written(s):
    """Where the world writes a word."""
    return min(s.deed.written) if s.deed.written else None


def other_byte(s, place):
    return s.put(("byte", place), s.view.bytes[place] ^ 1)


@plant("a write of the world changes a byte beside its word")
def _(s):
    place = word_written(s)
    return place and other_byte(s, place + 4 if place % 4096 < 4092 else place - 1)


@plant("a write of the world changes the byte before its word")
def _(s):
    place = word_written(s)
    return other_byte(s, place - 1) if place and place % 4096 else None


@plant("a write of the world changes a register")
def _(s):
    return word_written(s) and s.more(("reg", s.threads[0].tcb, A0))


@plant("a write of the world lets a thread go on")
def _(s):
    return word_written(s) and s.more(("reg", s.threads[-1].tcb, 0))


@plant("a write of the world reaches code")
def _(s):
    return word_written(s) and other_byte(s, code_of(s, s.threads[0]))


@plant("a write of the world is lost", outside=False)
def _(s):
    return (s.label, {}) if word_written(s) and s.changes else None


@plant("a write of the world is lost in part", outside=False)
def _(s):
    key = word_written(s) and s.first("byte")
    return s.without(key) if key else None


@plant("a write of the world has its bytes the other way round")
def _(s):
    place = word_written(s)
    around = place and {("byte", place + 3 - at): s.deed.written[place + at] for at in range(4)}
    changes = around and s.seen_of(around)
    return (s.label, changes) if changes and changes != s.changes and any(around[key] != new for key, new in s.deed.wanted.items()) else None


@plant("a write of the world says another word", outside=False)
def _(s):
    return word_written(s) and (f"{s.label[:-8]}{int(s.label[-8:], 16) ^ 1:08x}", s.changes)


def looked_at(s):
    """Where the world looks at a word."""
    return int(s.label.split()[1], 16) % 2**31 if s.label.startswith("read") else None


@plant("a look changes a byte")
def _(s):
    place = looked_at(s)
    return place and other_byte(s, place)


@plant("a look changes a register")
def _(s):
    return looked_at(s) and s.more(("reg", s.threads[0].tcb, A0))


@plant("a look shows another word", outside=False)
def _(s):
    return looked_at(s) and (f"{s.label[:-8]}{int(s.label[-8:], 16) ^ 2**31:08x}", s.changes)


@plant("a look shows the word beside", outside=False)
def _(s):
    place = looked_at(s)
    other = s.account.look(MEMORY + (place ^ 4)).label if place else s.label
    return (f"{s.label[:-8]}{other[-8:]}", s.changes) if other[-8:] != s.label[-8:] else None

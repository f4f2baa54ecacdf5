"""A node of the model (bench/model.py): what it says to others, its state, and its step, by the rules of docs/STEP.md. A function that is a rule there
begins its sentence with the rule's name. A `Node` can be driven alone, by `take`, `command`, `retry` and `see_loss`, each of which gives a `Turn` or
raises `Refused`."""
import struct
from dataclasses import dataclass, field

from model_terms import MOST_PROCESSES, OK, Atom, List, Pid, Reference, Tuple, levels, number_of, order, pid_of, written

# Faults, by the numbers of docs/FAULTS.md.
NOT_A_MESSAGE, BAD_CONFIG, NO_SUCH_PLACE, NOT_WAITING, BAD_CAPACITY, NODE_LOST, BUSY, NAME_TOO_LARGE, FOREIGN_PID = 12, 15, 16, 17, 18, 19, 22, 23, 24
NOT_FORMED, NOT_MADE, ALREADY_ENDED, PROCESS_LIMIT, NOT_DRAINED, CLOCK_FULL, NOT_LOST = 25, 26, 27, 28, 29, 30, 33
BAD_LINE, UNKNOWN_NODE, LATE_DECLARATION = 40, 41, 42

# How many commands are open at most, how far a clock goes, and how many bytes and levels a group's name has.
MOST_OPEN, MOST_CLOCK, MOST_NAME_BYTES, MOST_NAME_LEVELS = 256, 2**30, 1024, 32


class Refused(Exception):
    """An event that does not happen, or a script that is not played: the number of its fault, and its line where it has one."""

    def __init__(self, number, line=None):
        super().__init__(number)
        self.number, self.line = number, line

    def __str__(self):
        return f"refused {self.number}" if self.line is None else f"line {self.line} refused {self.number}"


# What nodes say to each other, each with its term.


@dataclass(frozen=True)
class Change:
    """A create or delete of a group, or a join or leave of a process."""

    word: str
    name: object
    pid: Pid = None

    def term(self):
        return Tuple((Atom(self.word), self.name) + ((self.pid,) if self.pid else ()))


@dataclass(frozen=True)
class LockRequest:
    reference: Reference
    name: object

    def term(self):
        return Tuple((Atom("call"), self.reference, Tuple((Atom("set_lock"), self.name))))


@dataclass(frozen=True)
class UpdateRequest:
    reference: Reference
    change: Change

    def term(self):
        return Tuple((Atom("call"), self.reference, self.change.term()))


@dataclass(frozen=True)
class Reply:
    """What a node says to a request: true or false to one for a lock, ok to an update."""

    reference: Reference
    said: Atom

    def term(self):
        return Tuple((Atom("reply"), self.reference, self.said))


@dataclass(frozen=True)
class LockFreed:
    name: object
    reference: Reference

    def term(self):
        return Tuple((Atom("cast"), Tuple((Atom("del_lock"), self.name, self.reference))))


@dataclass(frozen=True)
class Exchange:
    """The groups that a node began with: of each its name and its members, each as often as it is a member."""

    node: str
    groups: tuple

    def term(self):
        groups = List(tuple(List((name, List(pids))) for name, pids in self.groups))
        return Tuple((Atom("cast"), Tuple((Atom("exchange"), Atom(self.node), groups))))


@dataclass(frozen=True)
class ProcessEnd:
    pid: Pid

    def term(self):
        return Tuple((Atom("down"), self.pid))


def frame(stamp, message):
    """The bytes of a packet: four of their length, the version, and the stamp with the message."""
    body = b"\x83" + written(Tuple((stamp, message.term())))
    return struct.pack(">I", len(body)) + body


# A node and its step.

TRUE, FALSE = Atom("true"), Atom("false")
WAITING, CLOSED, SPENT = "Waiting", "Closed", "Spent"


class Gathered:
    """What a node gathers under a reference: whom it asked, and who has said what."""

    def __init__(self, asked):
        self.asked, self.said = set(asked), {}

    def is_complete(self):
        return self.asked == set(self.said)

    def forget(self, node):
        self.asked.discard(node)
        self.said.pop(node, None)


@dataclass
class Locking:
    """The use of a reference while a command asks for a lock with it: in the first round the greatest node is asked alone, in the second the rest."""

    command: tuple
    first: str
    gathered: Gathered
    is_second: bool = False
    has_first: bool = False
    kinds = (TRUE, FALSE)


@dataclass
class Owning:
    """The use of a reference while it holds the lock everywhere."""

    command: tuple


@dataclass
class Updating:
    """The use of a reference while an update goes out under it, with the nodes that have applied it."""

    command: tuple
    gathered: Gathered
    kinds = (OK,)


@dataclass
class Asking:
    """The stage of a command that asks for its lock."""

    reference: Reference


@dataclass
class Changing:
    """The stage of a command whose update goes out."""

    lock: Reference
    update: Reference


@dataclass(frozen=True)
class Command:
    """What a client asks for: `create`, `delete`, `join`, `leave`, `make`, `end`, `members`, `local`, `groups` or `closest`, and with what."""

    word: str
    name: object = None
    pid: Pid = None
    pick: int = 0


CHANGES = ("create", "delete", "join", "leave")


@dataclass
class Turn:
    """What an event gives: at most one message to each peer, all with one stamp, and the report: the update applied, the command that got its last
    grant, with its change, the command that was closed, the answers, and whether a reply was a stranger's or a double."""

    stamp: int = 0
    sent: dict = field(default_factory=dict)
    applied: Change = None
    granted: tuple = None
    closed: tuple = None
    answers: list = field(default_factory=list)
    odd: str = None

    def send(self, peer, message):
        assert peer not in self.sent, "one packet to each peer"
        self.sent[peer] = message


class Node:
    """A node's state, by the names of docs/STEP.md, its clock, and its step. A node is known by its name, a text, and a command by its port and number."""

    def __init__(self, name, nodes, groups=(), made=0):
        self.name, self.nodes = name, set(nodes)
        self.table = {group: counted(pids) for group, pids in groups}
        self.ended, self.locks = set(), {}
        self.merged, self.lost = set(), set()
        self.references, self.uses = 0, {}
        self.opened, self.stages, self.changes = 0, {}, {}
        self.processes, self.counts = made, {}
        self.clock = 0

    def opening(self):
        """The opening: what the node sent to each peer as it began, with stamp 0."""
        return Exchange(self.name, tuple((group, tuple(self.members(group))) for group in self.groups()))

    def live_nodes(self):
        """The live nodes: the node itself and the peers whose loss it has not seen."""
        return self.nodes - self.lost

    def live_peers(self):
        return sorted(self.live_nodes() - {self.name})

    def is_formed(self):
        """Formed: the exchange of every peer was taken."""
        return self.merged >= self.nodes - {self.name}

    def has_ended(self, pid):
        return pid in self.ended or pid.node in self.lost

    def groups(self):
        return sorted(self.table, key=order)

    def members(self, group):
        """The members of a group in the order of pids, each as often as it joined."""
        counts = self.table[group]
        return [pid for pid in sorted(counts, key=order) for _ in range(counts[pid])]

    # Clock and refusals.

    def clock_after(self, stamp=None):
        """Clock: taking a packet with a stamp sets it to the greater of clock and stamp, plus 1; other events add 1."""
        clock = (self.clock if stamp is None else max(self.clock, stamp)) + 1
        if clock > MOST_CLOCK:
            raise Refused(CLOCK_FULL)
        return clock

    def take(self, peer, stamp, message):
        """step_take: refused are the packet of a peer whose loss was seen, one for which the clock has no room, and one that is no message."""
        if peer in self.lost:
            raise Refused(NODE_LOST)
        turn = Turn(self.clock_after(stamp))
        self.taken(peer, message, turn)
        self.clock = turn.stamp
        return turn

    def command(self, command, port=1):
        """A command comes in: its number is its port's, which rises by 1."""
        turn = Turn(self.clock_after())
        self.clock = turn.stamp
        self.counts[port] = self.counts.get(port, 0) + 1
        self.command_by((port, self.counts[port]), command, turn)
        return turn

    def retry(self, number, port=1):
        """A retry is of a command that waits."""
        key = port, number
        if not self.waits(key):
            raise Refused(NOT_WAITING)
        turn = Turn(self.clock_after())
        self.clock = turn.stamp
        stage = self.stages[key]
        if stage == WAITING:
            self.attempt(key, turn)
        elif isinstance(stage, Asking):
            self.go_on(stage.reference, turn)
        else:
            self.replies_in(stage.update, turn)
        return turn

    def see_loss(self, peer, stamp):
        """The loss of a peer: the last notice has the lost node's clock. That all was taken that came is the world's to say."""
        if peer in self.lost:
            raise Refused(NODE_LOST)
        turn = Turn(self.clock_after(stamp))
        self.clock = turn.stamp
        self.forget(peer)
        return turn

    # A message is taken.

    def taken(self, peer, message, turn):
        """Taken: each message by its rule."""
        if isinstance(message, LockRequest):
            grants = self.lock_request(message.reference, message.name)
            turn.send(peer, Reply(message.reference, TRUE if grants else FALSE))
        elif isinstance(message, UpdateRequest):
            self.update(message.change, turn)
            turn.send(peer, Reply(message.reference, OK))
        elif isinstance(message, Reply):
            self.reply_taken(peer, message.reference, message.said, turn)
        elif isinstance(message, LockFreed):
            self.lock_freed(message.name, message.reference)
        elif isinstance(message, Exchange):
            self.exchange(peer, message)
        else:
            self.process_end(message.pid)

    def lock_request(self, reference, name):
        """Lock request: granted exactly where the node is formed and the name free; then the reference holds it."""
        grants = self.is_formed() and name not in self.locks
        if grants:
            self.locks[name] = reference
        return grants

    def update(self, change, turn):
        """Update request: the update changes the table, whoever holds the lock; a join of an ended process adds nothing."""
        turn.applied = change
        counts = self.table.get(change.name)
        if change.word == "create":
            self.table.setdefault(change.name, {})
        elif change.word == "delete":
            self.table.pop(change.name, None)
        elif change.word == "join" and counts is not None and not self.has_ended(change.pid):
            counts[change.pid] = counts.get(change.pid, 0) + 1
        elif change.word == "leave" and counts is not None and change.pid in counts:
            counts[change.pid] -= 1
            if not counts[change.pid]:
                del counts[change.pid]

    def reply_taken(self, peer, reference, said, turn):
        """Reply: judged by what is gathered under its reference."""
        use = self.uses.get(reference)
        gathered = getattr(use, "gathered", None)
        if gathered is None or peer not in gathered.asked:
            turn.odd = "Stranger"
        elif said not in use.kinds:
            raise Refused(NOT_A_MESSAGE)
        elif peer in gathered.said:
            turn.odd = "Double"
        else:
            gathered.said[peer] = said
            self.counted(reference, turn)

    def counted(self, reference, turn):
        """Counted, with what follows in the same event."""
        use = self.uses[reference]
        if use.gathered.is_complete():
            self.go_on(reference, turn) if isinstance(use, Locking) else self.replies_in(reference, turn)

    def lock_freed(self, name, reference):
        """Lock freed: the name is free if the reference held it; else nothing changes."""
        if self.locks.get(name) == reference:
            del self.locks[name]

    def exchange(self, peer, message):
        """Exchange: each group is merged, with the greater count of each process not ended, and the peer is merged."""
        if message.node != peer or peer in self.merged:
            raise Refused(NOT_A_MESSAGE)
        for group, pids in message.groups:
            counts = self.table.setdefault(group, {})
            for pid, count in counted(pids).items():
                if not self.has_ended(pid):
                    counts[pid] = max(count, counts.get(pid, 0))
        self.merged.add(peer)

    def process_end(self, pid):
        """Process end: the process is ended, and in no group; groups remain."""
        self.ended.add(pid)
        for counts in self.table.values():
            counts.pop(pid, None)

    # A command comes in.

    def command_by(self, key, command, turn):
        """A command by its kind: refused, or carried out by its rule."""
        fault = self.fault_of(command)
        if fault:
            self.answer(key, Refused(fault), turn)
        elif command.word in CHANGES:
            self.change(key, command, turn)
        elif command.word == "make":
            self.make(key, turn)
        elif command.word == "end":
            self.end_process(key, command.pid, turn)
        else:
            self.answer(key, self.reads(command), turn)

    def answer(self, key, answer, turn):
        turn.answers.append((key, answer))

    def fault_of(self, command):
        """Refused command: the number of the first fault, or None."""
        if command.name is not None and is_large(command.name):
            return NAME_TOO_LARGE
        if command.word in ("join", "leave") and command.pid.node not in self.nodes:
            return FOREIGN_PID
        if command.word == "end":
            return self.fault_of_end(command.pid)
        return PROCESS_LIMIT if command.word == "make" and self.processes >= MOST_PROCESSES else None

    def fault_of_end(self, pid):
        if pid.node != self.name:
            return FOREIGN_PID
        if not self.is_formed():
            return NOT_FORMED
        number = number_of(pid)
        if number is None or number > self.processes:
            return NOT_MADE
        return ALREADY_ENDED if pid in self.ended else None

    def change(self, key, command, turn):
        """Change: answered by the look, refused where too many are open, or opened, and its first attempt begins."""
        found = self.look(command)
        if found is not None:
            self.answer(key, found, turn)
        elif self.opened == MOST_OPEN:
            self.answer(key, Refused(BUSY), turn)
        else:
            self.undertake(key, command, turn)

    def look(self, command):
        """Look: a create of a group in the table is ok, a join or leave of any other no such group; a delete never looks."""
        is_known = command.name in self.table
        if command.word == "create" and is_known:
            return OK
        return no_such_group(command.name) if command.word in ("join", "leave") and not is_known else None

    def undertake(self, key, command, turn):
        """Any other change: it is opened, and its first attempt begins."""
        self.opened += 1
        self.changes[key] = Change(command.word, command.name, command.pid)
        self.attempt(key, turn)

    def make(self, key, turn):
        """Making: the answer is the next process."""
        self.processes += 1
        self.answer(key, pid_of(self.name, self.processes), turn)

    def end_process(self, key, pid, turn):
        """Ending: the own node takes the end, a message goes to each peer, the answer is ok."""
        self.process_end(pid)
        for peer in self.live_peers():
            turn.send(peer, ProcessEnd(pid))
        self.answer(key, OK, turn)

    def reads(self, command):
        """A query: the answer is what it reads in the table."""
        if command.word == "groups":
            return List(tuple(self.groups()))
        if command.name not in self.table:
            return no_such_group(command.name)
        everyone = self.members(command.name)
        local = [pid for pid in everyone if pid.node == self.name]
        if command.word == "closest":
            return picked(command, local or everyone)
        return List(tuple(local if command.word == "local" else everyone))

    # A retry and an attempt.

    def waits(self, key):
        """Waits: a command without an attempt under way, and one whose replies are all in."""
        stage = self.stages.get(key, CLOSED)
        if stage in (WAITING, CLOSED):
            return stage == WAITING
        return self.uses[stage.reference if isinstance(stage, Asking) else stage.update].gathered.is_complete()

    def fresh(self):
        """The node's next reference."""
        self.references += 1
        return Reference(self.name, 1, (self.references, 0, 0))

    def attempt(self, key, turn):
        """Ask first: a new reference; the greatest node is asked alone."""
        reference, greatest = self.fresh(), max(self.live_nodes())
        self.stages[key] = Asking(reference)
        self.uses[reference] = Locking(key, greatest, Gathered(()))
        self.ask(reference, {greatest}, turn)

    def ask(self, reference, nodes, turn):
        """Ask: a request goes to each of these nodes; the own node is asked at once, by the rule for a peer."""
        use = self.uses[reference]
        name = self.changes[use.command].name
        use.gathered = Gathered(nodes)
        for peer in sorted(nodes - {self.name}):
            turn.send(peer, LockRequest(reference, name))
        if self.name in nodes:
            use.gathered.said[self.name] = TRUE if self.lock_request(reference, name) else FALSE
        if use.gathered.is_complete():
            self.go_on(reference, turn)

    def go_on(self, reference, turn):
        """Go on: once the greatest has granted, all others are asked; where it denied, the command waits, and nothing is freed."""
        use = self.uses[reference]
        if use.is_second:
            self.locks_in(reference, turn)
        elif FALSE in use.gathered.said.values():
            self.wait(reference)
        else:
            use.is_second, use.has_first = True, use.first in use.gathered.said
            self.ask(reference, self.live_nodes() - {use.first}, turn)

    def wait(self, reference):
        self.stages[self.uses[reference].command] = WAITING
        self.uses[reference] = SPENT

    def locks_in(self, reference, turn):
        """Locks in: all answers are in. If all are true the update begins, else the attempt is given up."""
        if FALSE in self.uses[reference].gathered.said.values():
            self.give_up(reference, turn)
        else:
            self.begin(reference, turn)

    def give_up(self, reference, turn):
        """Give up: the lock is freed at each node that granted, and the command waits."""
        use = self.uses[reference]
        granted = {node for node, said in use.gathered.said.items() if said == TRUE} | ({use.first} if use.has_first else set())
        self.free(granted, reference, turn)
        self.wait(reference)

    def free(self, nodes, reference, turn):
        """The lock that the reference holds is freed at these nodes."""
        name = self.changes[self.uses[reference].command].name
        for peer in sorted(nodes - {self.name}):
            turn.send(peer, LockFreed(name, reference))
        if self.name in nodes:
            self.lock_freed(name, reference)

    def begin(self, reference, turn):
        """Begin: a new reference, the own table changed, the update sent to each peer; the own ok counts at once."""
        key = self.uses[reference].command
        change, update = self.changes[key], self.fresh()
        self.uses[reference], self.uses[update] = Owning(key), Updating(key, Gathered(self.live_nodes()))
        self.stages[key] = Changing(reference, update)
        turn.granted = key, change
        self.update(change, turn)
        for peer in self.live_peers():
            turn.send(peer, UpdateRequest(update, change))
        self.uses[update].gathered.said[self.name] = OK
        self.counted(update, turn)

    def replies_in(self, update, turn):
        """Replies in: every node has applied the update. The lock is freed everywhere, and the command answered ok and closed."""
        key = self.uses[update].command
        lock = self.stages[key].lock
        self.free(self.live_nodes(), lock, turn)
        self.uses[lock] = self.uses[update] = SPENT
        self.stages[key] = CLOSED
        self.opened -= 1
        turn.closed = key
        self.answer(key, OK, turn)

    # The loss of a peer.

    def forget(self, peer):
        """A loss is seen: the locks of the lost node are free, its processes have ended, its exchange counts as taken, and what is gathered forgets it."""
        self.lost.add(peer)
        self.merged.add(peer)
        self.locks = {name: holder for name, holder in self.locks.items() if holder.node != peer}
        self.table = {name: {pid: count for pid, count in counts.items() if pid.node != peer} for name, counts in self.table.items()}
        for use in self.uses.values():
            if isinstance(use, (Locking, Updating)):
                use.gathered.forget(peer)
            if isinstance(use, Locking) and use.first == peer:
                use.has_first = False


def counted(pids):
    """The count of each process."""
    return {pid: pids.count(pid) for pid in pids}


def is_large(name):
    """Whether a name takes more bytes or levels than a name may; the first of its bytes is the version, 131."""
    return 1 + len(written(name)) > MOST_NAME_BYTES or levels(name) > MOST_NAME_LEVELS


def no_such_group(name):
    return Tuple((Atom("error"), Tuple((Atom("no_such_group"), name))))


def picked(command, pids):
    """The process that the number picks, by its rest; no process where there is none."""
    return pids[command.pick % len(pids)] if pids else Tuple((Atom("error"), Tuple((Atom("no_process"), command.name))))

"""A node as a process, of the model: what it writes for the bodies that it reads, by the rules of crates/pg_node_process/README.md, crates/pg_process/README.md
and CALLING.md there, around the node of bench/model_node.py. `Process` takes bodies by `hear` and gives the bodies that it says; it does what follows in the
order of the program, so that both say the same bytes."""
import struct
from collections import deque

from model_node import (
    CLOCK_FULL,
    FALSE,
    NOT_A_MESSAGE,
    TRUE,
    Change,
    Command,
    Exchange,
    LockFreed,
    LockRequest,
    Node,
    ProcessEnd,
    Refused,
    Reply,
    UpdateRequest,
    frame,
    is_large,
)
from model_terms import MOST_CHARACTERS, MOST_LEVELS, OK, Atom, List, Pid, Reference, Tuple, written

# The first bytes of bodies, and the numbers of faults of terms, messages and frames.
TERM, TICK, CLOCK, DENIED, GROUPS, VERSION, FORMED, MIRRORED = 131, 16, 17, 19, 20, 21, 22, 23
TRUNCATED, BAD_VERSION, UNKNOWN_TAG, TOO_DEEP, INTEGER_TOO_LARGE, BAD_ATOM, IMPROPER_LIST, BAD_REFERENCE, TRAILING_BYTES = range(1, 10)
OLD_CLOCK, MANY_ENDED = 2**29, 1_000_000
TOO_LONG, STAMP_TOO_LARGE, FULL = 11, 13, 22

# The longest body, the most bytes that go out in one, how many changes wait at a port, and how ports give way.
MOST_BODY, PIECE, MOST_WAITING, STREAK, SHARED = 16_777_216, 65_536, 1024, 4, 64
MOST_STAMP = 2**30
# The tags of atoms, with how many bytes their length has and how their text is written; those of lists.
ATOMS = {119: (1, "utf-8"), 118: (2, "utf-8"), 115: (1, "latin-1"), 100: (2, "latin-1")}
LISTS = (106, 107, 108)
FREE, OWN, OTHER = "free", "own", "other"


class Faulty(Exception):
    """Bytes that spell no term or no message, with the number of their fault."""

    def __init__(self, number):
        super().__init__(number)
        self.number = number


class Bytes:
    """Bytes of which a term is read; each fault is the first in their order."""

    def __init__(self, text):
        self.text, self.at = text, 0

    def take(self, count):
        if len(self.text) - self.at < count:
            raise Faulty(TRUNCATED)
        self.at += count
        return self.text[self.at - count : self.at]

    def number(self, count):
        return int.from_bytes(self.take(count), "big")

    def whole(self):
        """The term that all the bytes spell, behind their version."""
        if self.number(1) != TERM:
            raise Faulty(BAD_VERSION)
        term = self.term(MOST_LEVELS)
        if self.at < len(self.text):
            raise Faulty(TRAILING_BYTES)
        return term

    def term(self, room):
        """The next term, where so many levels may nest."""
        tag = self.number(1)
        if room == 0:
            raise Faulty(TOO_DEEP)
        if tag == 97:
            return self.number(1)
        if tag == 98:
            return int.from_bytes(self.take(4), "big", signed=True)
        if tag == 110:
            return self.big()
        if tag in ATOMS:
            return Atom(self.atom_text(tag))
        if tag in (88, 103):
            return Pid(self.atom(), self.number(4), self.number(4), self.number(4 if tag == 88 else 1))
        if tag == 101:
            node, word = self.atom(), self.number(4)
            return Reference(node, self.number(1), (word,))
        if tag in (90, 114):
            count = self.number(2)
            if not 1 <= count <= 3:
                raise Faulty(BAD_REFERENCE)
            node, creation = self.atom(), self.number(4 if tag == 90 else 1)
            return Reference(node, creation, tuple(self.number(4) for _ in range(count)))
        if tag in (104, 105):
            return Tuple(tuple(self.term(room - 1) for _ in range(self.number(1 if tag == 104 else 4))))
        if tag in LISTS:
            return List(self.elements(tag, room - 1))
        if tag == 109:
            return bytes(self.take(self.number(4)))
        raise Faulty(UNKNOWN_TAG)

    def elements(self, tag, room):
        """The elements of a list behind its tag, where so many levels may nest in it."""
        if tag == 106:
            return ()
        if tag == 107:
            text = self.take(self.number(2))
            if room == 0 and text:
                raise Faulty(TOO_DEEP)
            return tuple(text)
        items = tuple(self.term(room) for _ in range(self.number(4)))
        tail = self.number(1)
        if room == 0:
            raise Faulty(TOO_DEEP)
        if tail not in LISTS:
            raise Faulty(IMPROPER_LIST)
        return items + self.elements(tail, room - 1)

    def big(self):
        count, sign = self.number(1), self.number(1)
        value = int.from_bytes(self.take(count), "little") * (-1 if sign else 1)
        if not -(2**63) <= value < 2**63:
            raise Faulty(INTEGER_TOO_LARGE)
        return value

    def atom(self):
        tag = self.number(1)
        if tag not in ATOMS:
            raise Faulty(BAD_ATOM)
        return self.atom_text(tag)

    def atom_text(self, tag):
        size, code = ATOMS[tag]
        text = self.take(self.number(size))
        try:
            text = text.decode(code)
        except UnicodeDecodeError:
            raise Faulty(BAD_ATOM) from None
        if len(text) > MOST_CHARACTERS:
            raise Faulty(BAD_ATOM)
        return text


def message_of(term):
    """The stamp and the message that a term is."""
    match term:
        case Tuple((int(stamp), said)) if stamp >= 0:
            message = said_by(said)
        case _:
            raise Faulty(NOT_A_MESSAGE)
    if stamp > MOST_STAMP:
        raise Faulty(STAMP_TOO_LARGE)
    return stamp, message


def said_by(term):
    match term:
        case Tuple((Atom("call"), Reference() as reference, Tuple((Atom("set_lock"), name)))) if not is_large(name):
            return LockRequest(reference, name)
        case Tuple((Atom("call"), Reference() as reference, Tuple((Atom("create" | "delete" as word), name)))) if not is_large(name):
            return UpdateRequest(reference, Change(word, name))
        case Tuple((Atom("call"), Reference() as reference, Tuple((Atom("join" | "leave" as word), name, Pid() as pid)))) if not is_large(name):
            return UpdateRequest(reference, Change(word, name, pid))
        case Tuple((Atom("reply"), Reference() as reference, Atom("ok" | "true" | "false" as said))):
            return Reply(reference, {"ok": OK, "true": TRUE, "false": FALSE}[said])
        case Tuple((Atom("cast"), Tuple((Atom("del_lock"), name, Reference() as reference)))) if not is_large(name):
            return LockFreed(name, reference)
        case Tuple((Atom("cast"), Tuple((Atom("exchange"), Atom(node), List(groups))))):
            return Exchange(node, tuple(group_of(group) for group in groups))
        case Tuple((Atom("down"), Pid() as pid)):
            return ProcessEnd(pid)
    raise Faulty(NOT_A_MESSAGE)


def group_of(term):
    match term:
        case List((name, List(pids))) if all(isinstance(pid, Pid) for pid in pids) and not is_large(name):
            return name, tuple(pids)
    raise Faulty(NOT_A_MESSAGE)


def command_of(term):
    """The command of a request, or None."""
    match term:
        case Atom("make"):
            return Command("make")
        case Atom("which_groups"):
            return Command("groups")
        case Tuple((Atom("create" | "delete" | "members" as word), name)):
            return Command(word, name)
        case Tuple((Atom("local_members"), name)):
            return Command("local", name)
        case Tuple((Atom("finish"), Pid() as pid)):
            return Command("end", None, pid)
        case Tuple((Atom("join" | "leave" as word), name, Pid() as pid)):
            return Command(word, name, pid)
        case Tuple((Atom("closest"), name, int(pick))) if 0 <= pick < 2**32:
            return Command("closest", name, None, pick)
    return None


QUERIES = ("members", "local", "groups", "closest")


class Link:
    """What stands between the node and one peer."""

    def __init__(self, out=b""):
        self.unread, self.out, self.damaged = b"", out, False


class Port:
    """The requests of a port, and how it gives way."""

    def __init__(self):
        self.came, self.waiting, self.current = 0, deque(), None
        self.streak, self.shared = 0, 0
        self.has_waited = self.saw_other = self.is_told = False

    def gives_way(self):
        return self.shared > 0 and self.streak >= STREAK

    def look(self, seen, is_tick):
        if seen == OTHER:
            self.streak, self.shared, self.saw_other = 0, SHARED, True
        elif is_tick:
            gives_way = self.gives_way()
            if gives_way and self.has_waited:
                self.streak = 0
            self.has_waited = gives_way and not self.has_waited

    def answered(self):
        self.streak, self.shared = self.streak + 1, max(self.shared - 1, 0)
        self.saw_other = self.is_told = False


class Process:
    """One node of a set as a process. `peers`: their names, by their numbers."""

    def __init__(self, own, peers, ports=1, made=0, groups=()):
        self.own, self.peers = own, peers
        self.node = Node(own, [own, *peers], groups, made)
        opening = frame(0, self.node.opening())
        self.links = [Link(opening) for _ in peers]
        self.ports = [Port() for _ in range(ports)]
        self.answers = [deque() for _ in range(ports)]
        self.opened, self.came, self.is_told_formed, self.said = [], 1, False, []
        self.warned = set()
        # the table as it was behind each body that was said, for a host that mirrors it
        self.tables = []

    def begin(self):
        """What follows from the body that brought the groups."""
        return self.attended(False)

    def hear(self, body):
        """The bodies that it says for a body."""
        self.came += 1
        return self.attended(self.heed(body))

    def attended(self, is_tick):
        self.take_all()
        self.answer_all()
        for key in [key for key in self.opened if self.node.waits(key)]:
            self.retry(key, is_tick)
        self.hand_over_all(is_tick)
        for port, _ in [key for key in self.opened if self.node.waits(key)]:
            if not self.ports[port - 1].is_told:
                self.ports[port - 1].is_told = True
                self.say(bytes([DENIED, port]))
        self.form()
        self.warn()
        for peer, link in enumerate(self.links):
            while link.out:
                self.say(bytes([peer]) + link.out[:PIECE])
                link.out = link.out[PIECE:]
        said, self.said = self.said, []
        return said

    def say(self, body):
        self.said.append(body)
        self.tables.append({name: {pid: count for pid, count in counts.items() if count} for name, counts in self.node.table.items()})

    def form(self):
        """Says that the node is formed, once it is."""
        if self.node.is_formed() and not self.is_told_formed:
            self.is_told_formed = True
            self.say(bytes([FORMED]))

    def warn(self):
        """Tells once that the clock is old, and once that many processes have ended."""
        for word, count, limit in (("old_clock", self.node.clock, OLD_CLOCK), ("many_ended", len(self.node.ended), MANY_ENDED)):
            if count >= limit and word not in self.warned:
                self.warned.add(word)
                self.tell(Tuple((Atom(word), count)))

    def tell(self, term):
        self.say(bytes([TERM]) + written(term))

    def reply(self, port, number, term):
        self.tell(Tuple((Atom(self.own), port, number, term)))

    # What a body asks for.

    def heed(self, body):
        """Does it; whether it is a tick."""
        first, rest = (body[0], body[1:]) if body else (GROUPS, b"")
        if first == TICK and not rest:
            return True
        if first == CLOCK and not rest:
            self.say(bytes([CLOCK]) + struct.pack(">I", self.node.clock))
        elif first == DENIED and len(rest) == 1 and 1 <= rest[0] <= len(self.ports):
            self.ports[rest[0] - 1].shared = SHARED
        elif first < len(self.peers):
            link = self.links[first]
            if not link.damaged:
                link.unread += rest
        elif first != TERM or not self.request(body):
            self.tell(Tuple((Atom("error"), Tuple((Atom("bad_request"), self.came)))))
        return False

    def request(self, body):
        """Does what a term asks for; whether it asks for something."""
        try:
            term = Bytes(body).whole()
        except Faulty:
            return False
        match term:
            case Tuple((Atom(self.own), int(number), asked)) if 1 <= number <= len(self.ports):
                command = command_of(asked)
            case _:
                return False
        if command is None:
            return False
        port = self.ports[number - 1]
        port.came += 1
        if command.word in QUERIES:
            self.reply(number, port.came, self.node.reads(command))
        elif len(port.waiting) == MOST_WAITING:
            self.reply(number, port.came, refused(FULL))
        else:
            port.waiting.append((port.came, command))
        return True

    # What follows.

    def take_all(self):
        for peer, link in enumerate(self.links):
            while not link.damaged and self.take(peer, link):
                pass

    def take(self, peer, link):
        """Takes the next packet of a peer; whether one was whole, or its length too great."""
        try:
            if len(link.unread) < 4:
                return False
            size = struct.unpack(">I", link.unread[:4])[0]
            if size > MOST_BODY:
                raise Faulty(TOO_LONG)
            if len(link.unread) < 4 + size:
                return False
            stamp, message = message_of(Bytes(link.unread[4 : 4 + size]).whole())
            if isinstance(message, Exchange) and (message.node != self.peers[peer] or message.node in self.node.merged or is_doubled(message)):
                self.node.clock_after(stamp)
                raise Faulty(NOT_A_MESSAGE)
            if isinstance(message, Reply) and self.is_wrong(message):
                self.node.clock_after(stamp)
                raise Faulty(NOT_A_MESSAGE)
        except Faulty as fault:
            link.damaged = True
            self.tell(Tuple((refused(fault.number), Atom(self.peers[peer]))))
            return True
        link.unread = link.unread[4 + size :]
        self.after(self.node.take(self.peers[peer], stamp, message))
        self.form()
        return True

    def is_wrong(self, message):
        """Whether a reply is not of the kind that its reference gathers."""
        use = self.node.uses.get(message.reference)
        return hasattr(use, "kinds") and message.said not in use.kinds

    def after(self, turn):
        """What an event gives: packets go out, and answers wait to be said."""
        for peer, link in zip(self.peers, self.links):
            if peer in turn.sent:
                link.out += frame(turn.stamp, turn.sent[peer])
        for (port, _), answer in turn.answers:
            self.answers[port - 1].append(answer)
        if turn.closed:
            self.opened.remove(turn.closed)

    def answer_all(self):
        """Says all answers; whether there was one."""
        return any([self.answer(number) for number in range(1, len(self.ports) + 1)])

    def answer(self, number):
        port, answers = self.ports[number - 1], self.answers[number - 1]
        said = bool(answers)
        while answers:
            answer = answers.popleft()
            change = port.current[1]
            if change.word == "join" and answer == Atom("ok") and self.node.has_ended(change.pid):
                self.tell(Tuple((Atom("has_ended"), Tuple((Atom(self.own), number, port.current[0])))))
            self.reply(number, port.current[0], refused(answer.number) if isinstance(answer, Refused) else answer)
            port.current = None
            port.answered()
        return said

    def seen(self, port):
        """What a port sees of the lock of the group that its change is of, or its next one."""
        change = port.current or (port.waiting[0] if port.waiting else None)
        if change is None or change[1].word not in ("create", "delete", "join", "leave") or not self.node.is_formed():
            return OWN
        holder = self.node.locks.get(change[1].name)
        return FREE if holder is None else OWN if holder.node == self.own else OTHER

    def retry(self, key, is_tick):
        """A port whose change was denied looks at its lock; the change is tried again where that is due."""
        port = self.ports[key[0] - 1]
        seen = self.seen(port)
        port.look(seen, is_tick)
        if seen == FREE and (is_tick or port.saw_other) and self.node.waits(key):
            self.after(self.node.retry(key[1], key[0]))
            port.saw_other = port.is_told = False
        self.answer(key[0])

    def hand_over_all(self, is_tick):
        for number in range(1, len(self.ports) + 1):
            self.hand_over(number, is_tick)

    def hand_over(self, number, is_tick):
        """Hands over the next changes of a port, as long as the node answers them at once and the port does not give way."""
        port = self.ports[number - 1]
        if port.current or not port.waiting:
            return
        port.look(self.seen(port), is_tick)
        while not port.current and port.waiting and not port.gives_way():
            port.current = port.waiting.popleft()
            turn = self.node.command(port.current[1], number)
            key = number, self.node.counts[number]
            if key in self.node.changes and turn.closed != key:
                self.opened.append(key)
            elif turn.closed == key:
                turn.closed = None
            self.after(turn)
            self.answer(number)


def is_doubled(message):
    names = [name for name, _ in message.groups]
    return len(set(names)) < len(names)


def refused(number):
    return Tuple((Atom("refused"), number))


__all__ = ["CLOCK_FULL", "Bytes", "Faulty", "Process"]

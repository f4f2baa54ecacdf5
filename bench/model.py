"""A model of the cluster, written from its pages alone and with nothing of the program in it: a world of nodes with the bytes between them, and the
scripts that move it (SCRIPTS.md of the cookbook). A node and its step are in bench/model_node.py, terms in bench/model_terms.py. `play` plays a
script."""
import re
from dataclasses import dataclass

from model_node import BAD_CAPACITY, BAD_CONFIG, BAD_LINE, LATE_DECLARATION, NAME_TOO_LARGE, NODE_LOST, NOT_DRAINED, NOT_LOST, UNKNOWN_NODE
from model_node import Command, Node, Refused, frame, is_large
from model_terms import MOST_PROCESSES, Faulty, List, Reader, number_of, text_of, text_of_atom

# How many nodes there are at most, and bytes on a ring; how many rounds a line settles for; and how many bytes it moves where it does not say.
MOST_NODES, MOST_CAPACITY, MOST_ROUNDS, MOST_MOVED = 16, 65536, 1000000, 65536

# A world of nodes, and the bytes between them.


@dataclass
class Configuration:
    """What a world begins with: of each node how many processes it made, and its groups; and the capacity of rings."""

    made: dict
    groups: dict
    capacity: int = MOST_CAPACITY

    def check(self):
        """Raises the first fault: BadConfig, NameTooLarge, BadCapacity."""
        names = [[name for name, _ in groups] for groups in self.groups.values()]
        members = [pid for groups in self.groups.values() for _, pids in groups for pid in pids]
        if not 1 <= len(self.made) <= MOST_NODES or any(made > MOST_PROCESSES for made in self.made.values()):
            raise Refused(BAD_CONFIG)
        if any(len(set(some)) < len(some) for some in names) or not all(map(self.has_made, members)):
            raise Refused(BAD_CONFIG)
        if any(is_large(name) for some in names for name in some):
            raise Refused(NAME_TOO_LARGE)
        if not 1 <= self.capacity <= MOST_CAPACITY:
            raise Refused(BAD_CAPACITY)

    def has_made(self, pid):
        number = number_of(pid)
        return number is not None and number <= self.made.get(pid.node, 0)


class Way:
    """The packets from one node to another that were not taken, with the lengths of their frames, and how many of these bytes were put on the ring and
    pulled off."""

    def __init__(self):
        self.packets, self.length, self.put, self.pulled = [], 0, 0, 0

    def add(self, stamp, message):
        length = len(frame(stamp, message))
        self.packets.append((length, stamp, message))
        self.length += length

    def outbox(self):
        return self.length - self.put

    def ring(self):
        return self.put - self.pulled

    def has_come(self, moved):
        """Whether so many bytes have the whole of the first packet."""
        return bool(self.packets) and self.packets[0][0] <= moved

    def close(self):
        """Nothing stands in the outbox any more."""
        self.length = self.put

    def first(self):
        """Takes the first packet off the way."""
        length, stamp, message = self.packets.pop(0)
        self.length, self.put, self.pulled = self.length - length, self.put - length, self.pulled - length
        return stamp, message


class World:
    """Nodes by their names, in the order of declaration, and the way from each to each other; which nodes are lost; what was answered since it was last
    asked; the changes that got their last grant, in order; and `packets`, each that was sent or taken: the node, its clock, `send` or `take`, the other
    node, the message."""

    def __init__(self, configuration):
        configuration.check()
        names = list(configuration.made)
        self.capacity, self.lost, self.answers, self.granted, self.packets = configuration.capacity, set(), [], [], []
        self.nodes = {name: Node(name, names, configuration.groups.get(name, []), configuration.made[name]) for name in names}
        self.ways = {(one, other): Way() for one in names for other in names if one != other}
        for one, other in self.ways:
            self.send(one, other, 0, self.nodes[one].opening())

    def send(self, one, other, stamp, message):
        """A packet stands in the outbox."""
        self.ways[one, other].add(stamp, message)
        self.packets.append((one, stamp, "send", other, message))

    def check_live(self, name):
        """A step of a lost node is refused."""
        if name in self.lost:
            raise Refused(NODE_LOST)

    def put(self, one, other, most=MOST_MOVED):
        """Bytes move from the outbox to the ring; gives how many."""
        self.check_live(one)
        way = self.ways[one, other]
        moved = min(most, way.outbox(), self.capacity - way.ring())
        way.put += moved
        return moved

    def check_unseen(self, other, one):
        """A step of a lost node, and one by which something comes from a node whose loss was seen, is refused."""
        self.check_live(other)
        if one in self.nodes[other].lost:
            raise Refused(NODE_LOST)

    def pull(self, other, one, most=MOST_MOVED):
        """Bytes move off the ring to the other node; gives how many."""
        self.check_unseen(other, one)
        way = self.ways[one, other]
        moved = min(most, way.ring())
        way.pulled += moved
        return moved

    def take(self, other, one):
        """A whole packet that has come is taken; gives whether there was one."""
        self.check_unseen(other, one)
        way = self.ways[one, other]
        if not way.has_come(way.pulled):
            return False
        stamp, message = way.first()
        turn = self.nodes[other].take(one, stamp, message)
        self.packets.append((other, turn.stamp, "take", one, message))
        self.happened(other, turn)
        return True

    def happened(self, name, turn):
        """What a node's turn gave is kept: packets in the outboxes, answers, and the change that got its last grant."""
        for peer, message in turn.sent.items():
            self.send(name, peer, turn.stamp, message)
        self.answers += [(name, number, answer) for (_, number), answer in turn.answers]
        if turn.granted:
            self.granted.append(turn.granted[1])

    def command(self, name, command):
        self.check_live(name)
        self.happened(name, self.nodes[name].command(command))

    def retry(self, name, number):
        self.check_live(name)
        self.happened(name, self.nodes[name].retry(number))

    def lose(self, name):
        self.check_live(name)
        self.lost.add(name)

    def see_loss(self, other, one):
        """The first refusal of the loss of a peer: NodeLost, NotLost, NotDrained, ClockFull. It is not drained while bytes of it are on the ring, or a whole
        packet has come. What stood in the outbox to it is gone then."""
        self.check_unseen(other, one)
        if one not in self.lost:
            raise Refused(NOT_LOST)
        way = self.ways[one, other]
        if way.ring() > 0 or way.has_come(way.pulled):
            raise Refused(NOT_DRAINED)
        self.happened(other, self.nodes[other].see_loss(one, self.nodes[one].clock))
        self.ways[other, one].close()

    def settle(self, rounds=MOST_ROUNDS):
        """Rounds of a put, a pull and a take for each ordered pair, until nothing moves."""
        for _ in range(rounds):
            if not any([self.carry(one, other) for one, other in self.ways]):
                return

    def carry(self, one, other):
        """One pair's part of a round; lost nodes do nothing, and nothing comes from one whose loss was seen. Gives whether anything moved."""
        moved = one not in self.lost and self.put(one, other) > 0
        if other not in self.lost and one not in self.nodes[other].lost:
            moved = self.pull(other, one) > 0 or moved
            moved = self.take(other, one) or moved
        return moved

    def new_answers(self):
        """What was answered since, by node in the order of declaration."""
        answers, self.answers = self.answers, []
        return [one for name in self.nodes for one in answers if one[0] == name]


# Scripts.

WORD = re.compile(r"[a-z]+")

# What follows the word of each line. A part that ends in `?` may be left out.
FORMS = {
    "put": ("node", "node", "number?"),
    "pull": ("node", "node", "number?"),
    "take": ("node", "node"),
    "outbox": ("node", "node"),
    "seeloss": ("node", "node"),
    "settle": ("rounds?",),
    "lose": ("node",),
    "create": ("node", "term"),
    "delete": ("node", "term"),
    "join": ("node", "term", "pid"),
    "leave": ("node", "term", "pid"),
    "make": ("node",),
    "end": ("node", "pid"),
    "members": ("node", "term"),
    "local": ("node", "term"),
    "groups": ("node",),
    "closest": ("node", "term", "number"),
    "retry": ("node", "number"),
    "lock": ("node", "term"),
    "history": ("term",),
}
DECLARATIONS = ("node", "has", "ring")


@dataclass
class Line:
    """A line of a script that is no blank: its number, its word, and what follows it; the nodes apart."""

    number: int
    word: str
    nodes: list
    values: list


def parts_of(reader, forms):
    """The parts of a line, which one space parts, by their forms."""
    for form in forms:
        if form.endswith("?") and reader.is_at_end():
            return
        reader.need(" ")
        yield form, part_of(reader, form.rstrip("?"))


def part_of(reader, form):
    """A part of a line, by its form."""
    if form == "node":
        return reader.atom()
    if form == "term":
        return reader.term()
    if form == "pid":
        return reader.pid()
    return reader.number(MOST_ROUNDS if form == "rounds" else 2**32 - 1)


def line_of(number, text):
    """A line by its form; raises Faulty where it has none."""
    reader = Reader(text)
    word = reader.match(WORD)
    if word not in FORMS and word not in DECLARATIONS:
        raise Faulty
    parts = list(declared_by(reader, word) if word in DECLARATIONS else parts_of(reader, FORMS[word]))
    if not reader.is_at_end():
        raise Faulty
    return Line(number, word, [part for form, part in parts if form == "node"], [part for form, part in parts if form != "node"])


def declared_by(reader, word):
    """The parts of a declaration: `ring N`, `node NODE [made N]`, `has NODE TERM [PID ..]`."""
    yield from parts_of(reader, {"ring": ("number",), "node": ("node",), "has": ("node", "term")}[word])
    if word == "node" and reader.skip(" made"):
        yield from parts_of(reader, ("number",))
    while word == "has" and not reader.is_at_end():
        yield from parts_of(reader, ("pid",))


class Script:
    """A script that is read: what it declares, and its steps. It is read line by line, so that a fault is that of the first faulty line."""

    def __init__(self, lines=()):
        self.configuration, self.has_ring, self.steps, self.number = Configuration({}, {}), False, [], 0
        for line in lines:
            self.read(line)

    def read(self, text):
        """Reads the next line."""
        self.number += 1
        if text and not text.startswith("%"):
            line = self.checked(text)
            if line.word in DECLARATIONS:
                self.declare(line)
            else:
                self.steps.append(line)

    def checked(self, text):
        """A line without fault. Of several faults the first counts: no form, a late declaration, an unknown node, a node again."""
        try:
            line = line_of(self.number, text)
        except Faulty:
            raise Refused(BAD_LINE, self.number)
        declared, is_node = self.configuration.made, line.word == "node"
        if line.word == "ring" and self.has_ring:
            raise Refused(BAD_LINE, self.number)
        if line.word in DECLARATIONS and self.steps:
            raise Refused(LATE_DECLARATION, self.number)
        if not is_node and (len(set(line.nodes)) < len(line.nodes) or any(name not in declared for name in line.nodes)):
            raise Refused(UNKNOWN_NODE, self.number)
        if is_node and line.nodes[0] in declared:
            raise Refused(BAD_CONFIG, self.number)
        return line

    def declare(self, line):
        if line.word == "ring":
            self.has_ring, self.configuration.capacity = True, line.values[0]
        elif line.word == "node":
            self.configuration.made[line.nodes[0]] = line.values[0] if line.values else 0
        else:
            self.configuration.groups.setdefault(line.nodes[0], []).append((line.values[0], line.values[1:]))


class Run:
    """A run of a script: its world; how many steps, commands, losses and refusals there were; and how many packets were sent and taken by the end of
    each line."""

    def __init__(self, configuration):
        self.world, self.steps, self.commands, self.losses, self.refusals = World(configuration), 0, 0, 0, 0
        self.ends = [(0, len(self.world.packets))]

    def step(self, line):
        """Makes the step of a line; gives the lines that it prints."""
        self.steps += 1
        printed = self.printed_after(line)
        self.ends.append((line.number, len(self.world.packets)))
        return printed

    def packets(self):
        """The rows of the trace that are about packets sent and taken, each column parted by one blank."""
        begin = 0
        for number, end in self.ends:
            for node, clock, kind, other, message in self.world.packets[begin:end]:
                way = "to" if kind == "send" else "from"
                yield f"% {number} {text_of_atom(node)} {clock} {kind} {way} {text_of_atom(other)} {text_of(message.term())}"
            begin = end

    def printed_after(self, line):
        """What is printed after a line: what it prints itself, new answers, and its refusal."""
        printed, refused = [], []
        try:
            printed = self.printed_by(line)
        except Refused as error:
            refused = [str(Refused(error.number, line.number))]
        answers = [f"{text_of_atom(name)} {number} {text_of_answer(answer)}" for name, number, answer in self.world.new_answers()]
        self.refusals += len(refused) + sum(" refused " in answer for answer in answers)
        return printed + answers + refused

    def printed_by(self, line):
        """Does what a line says; gives what the line itself prints."""
        world, word, nodes, values = self.world, line.word, line.nodes, line.values
        if word in ("put", "pull", "take", "settle", "retry"):
            getattr(world, word)(*nodes, *values)
        elif word in ("lose", "seeloss"):
            (world.lose if word == "lose" else world.see_loss)(*nodes)
            self.losses += word == "lose"
        elif word == "outbox":
            return [f"outbox {text_of_atom(nodes[0])} {text_of_atom(nodes[1])} {world.ways[tuple(nodes)].outbox()}"]
        elif word == "lock":
            return [f"lock {text_of_atom(nodes[0])} {text_of(values[0])} {'held' if values[0] in world.nodes[nodes[0]].locks else 'free'}"]
        elif word == "history":
            return ["history " + text_of(List(tuple(change.term() for change in world.granted if change.name == values[0])))]
        else:
            world.command(nodes[0], command_of(word, values))
            self.commands += 1
        return []


def command_of(word, values):
    """The command of a line: a name comes first, then a process or a number."""
    name = None if word in ("make", "end", "groups") else values[0]
    return Command(word, name, values[-1] if word in ("join", "leave", "end") else None, values[-1] if word == "closest" else 0)


def text_of_answer(answer):
    return str(answer) if isinstance(answer, Refused) else text_of(answer)


@dataclass
class Played:
    """What the play of a script prints on standard output and standard error, its status, and its run where there was one."""

    output: str
    error: str
    status: int
    run: Run = None


def play(text):
    """Plays a script."""
    try:
        script = Script(text.split("\n"))
        run = Run(script.configuration)
    except Refused as error:
        return Played("", f"{error}\n", 2)
    printed = [row for line in script.steps for row in run.step(line)]
    return Played("".join(f"{row}\n" for row in printed), "", 0, run)

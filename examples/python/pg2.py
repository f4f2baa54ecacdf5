"""pg2's interface over a cluster of `pg2sim serve`, without packages.

    with Cluster(program, ["a", "b"]) as cluster:
        a = cluster.at("a")
        pid = a.make()
        a.create("workers"), a.join("workers", pid)
        print(cluster.at("b").get_members("workers"))

Terms: integers, lists and tuples are Python's; an atom is an `Atom`, a str with another name; a process is a `Pid`.

Threads may share a cluster: a reply goes to who asked. One thread writes the requests, one reads the replies and one what the program says
on standard error, so that no call waits for a pipe.
"""
import collections
import contextlib
import queue
import struct
import subprocess
import threading
from concurrent.futures import Future, TimeoutError as Late


class Atom(str):
    """An atom."""

    def __repr__(self):
        return str(self)


Pid = collections.namedtuple("Pid", "node id serial creation")

# How a service ended: its status, 0 where all was answered and the nodes agree, and the lines that it wrote on standard error, of which the
# judges' are `agree yes` and `replay yes`.
Closed = collections.namedtuple("Closed", "status lines")


class ClusterError(Exception):
    """A request has no reply that is a value."""


class Refused(ClusterError):
    """A node refused a command, by the number of the fault; nothing happened. 30: the service ends, since a node's clock is nearly full."""


class Unknown(ClusterError):
    """The service ended by this fault while the request was open: it may have happened."""


class NodeLost(ClusterError):
    """The node is lost, by its name. What was under way there may have happened."""


class BadRequest(ClusterError):
    """The service takes no such request. The number is its place among all bodies, and no fault number."""

    def __str__(self):
        return f"body {self.args[0]} is no request of the protocol"


class ServerEnded(ClusterError):
    """The service is over, with this status. A request that was under way may have happened. `lines`: the last that it wrote on standard error."""

    def __init__(self, status, lines=()):
        super().__init__(status)
        self.lines = list(lines)

    def __str__(self):
        return "; ".join([f"the service ended with status {self.args[0]}", *list(filter(None, self.lines))[-3:]])


class Port:
    """The requests of a port that are under way, by their numbers in order, and the number of the next."""

    def __init__(self):
        self.next, self.waiting = 1, []


class Waiting:
    """A request that is under way: its place among all bodies, and among its port's."""

    def __init__(self, place, port=None):
        self.place, self.port, self.future = place, port, Future()
        if port:
            self.number, port.next = port.next, port.next + 1
            port.waiting.append(self)


class Cluster:
    """A cluster of nodes with these names, each with so many ports. `timeout`: after how many seconds without a reply a call gives up by
    TimeoutError; the request stays under way. `./pg2sim` of a fresh clone is built first, which takes minutes: run `./pg2sim version` before."""

    def __init__(self, program, names, ports=1, words=(), timeout=60):
        named = [word for name in names for word in ("--name", name)]
        counts = ["--nodes", str(len(names)), "--ports", str(ports)]
        pipe = subprocess.PIPE
        self.process = subprocess.Popen([program, "serve", *counts, *named, *words], stdin=pipe, stdout=pipe, stderr=pipe)
        self.timeout = timeout
        self.lock = threading.Lock()
        # No call begins behind the end, and each one that began before is answered by it.
        self.ended = self.closing = False
        self.bodies, self.places, self.losses = 0, {}, collections.defaultdict(collections.deque)
        self.ports = {(name, port): Port() for name in names for port in range(1, ports + 1)}
        self.queue, self.lines = queue.SimpleQueue(), collections.deque(maxlen=1000)
        self.threads = [threading.Thread(target=work, daemon=True) for work in (self._hear, self._write, self._read)]
        for thread in self.threads:
            thread.start()

    def __enter__(self):
        return self

    def __exit__(self, kind, *error):
        if kind:
            self.kill()
        else:
            self.close()

    def at(self, name, port=1):
        return Node(self, Atom(name), port)

    def send(self, request):
        """Sends a request: (node, port, command), or (Atom("lose"), node). A Future of its reply, which never waits for the service."""
        body = b"\x83" + encode(request)
        with self.lock:
            if self.ended or self.closing:
                raise ServerEnded(self.process.poll(), self.lines)
            self.bodies += 1
            waiting = Waiting(self.bodies, self._port_of(request))
            self.places[self.bodies] = waiting
            if is_loss(request):
                self.losses[request[1]].append(waiting)
            self.queue.put(struct.pack(">I", len(body)) + body)
        return waiting.future

    def ask(self, request, timeout=None):
        """Sends a request and waits for its reply: what stands behind node, port and number; or (lost, node)."""
        try:
            return self.send(request).result(self.timeout if timeout is None else timeout)
        except Late:
            raise TimeoutError("no reply to %r" % (request,)) from None

    def lose(self, name):
        """A node is lost for good. The others see that once they have taken all that came from it: soon, but not at once."""
        return self.ask((Atom("lose"), Atom(name)))

    def close(self, timeout=None):
        """Ends the input, waits until all is answered and the cluster is judged, and tells how it ended; it may be called again. TimeoutError where that takes longer."""
        with self.lock:
            if not self.closing:
                self.closing = True
                self.queue.put(None)
        for thread in self.threads:
            thread.join(timeout)
            if thread.is_alive():
                raise TimeoutError("the service does not end")
        return Closed(self.process.wait(), list(self.lines))

    def kill(self):
        """Ends the service at once."""
        self.process.kill()
        return self.close()

    def _port_of(self, request):
        if type(request) is tuple and len(request) == 3 and isinstance(request[0], Atom) and isinstance(request[1], int):
            return self.ports.get(request[:2])

    # ---- the threads

    def _write(self):
        pipe = self.process.stdin
        try:
            for body in iter(self.queue.get, None):
                pipe.write(body)
                if self.queue.empty():
                    pipe.flush()
        except OSError:
            pass  # The service is over: what is left is answered by its end.
        with contextlib.suppress(OSError):
            pipe.close()

    def _read(self):
        try:
            with self.process.stdout as pipe:
                while len(head := pipe.read(4)) == 4:
                    self._answer(decode(pipe.read(struct.unpack(">I", head)[0])[1:])[0])
        finally:
            self._end(self.process.wait())

    def _end(self, status):
        """The service is over: no request that is left is answered any more."""
        # (what it wrote last says why)
        self.threads[0].join(1)
        with self.lock:
            self.ended = True
            left = list(self.places.values())
            self.places.clear()
            self.queue.put(None)
        for waiting in left:
            waiting.future.set_exception(ServerEnded(status, self.lines))

    def _hear(self):
        with self.process.stderr as pipe:
            for line in pipe:
                self.lines.append(line.decode(errors="replace").rstrip("\n"))

    def _answer(self, reply):
        with self.lock:
            if len(reply) == 4:
                port = self.ports[reply[:2]]
                waiting = next(waiting for waiting in port.waiting if waiting.number == reply[2])
                port.waiting.remove(waiting)
            elif reply[0] == "lost":
                waiting = self.losses[reply[1]].popleft()
            else:
                waiting = self.places[reply[1][1]]
                self._uncount(waiting)
            del self.places[waiting.place]
        error = error_of(reply)
        if error:
            waiting.future.set_exception(error)
        else:
            waiting.future.set_result(reply[-1] if len(reply) == 4 else reply)

    def _uncount(self, bad):
        """A bad request has no number of its port: those sent after it have the number before theirs."""
        for losses in self.losses.values():
            if bad in losses:
                losses.remove(bad)
        if bad.port:
            bad.port.waiting.remove(bad)
            bad.port.next -= 1
            for waiting in bad.port.waiting:
                if waiting.number > bad.number:
                    waiting.number -= 1


def error_of(reply):
    """The error that a reply of the service is, if it is one."""
    if len(reply) == 2:
        return BadRequest(reply[1][1]) if reply[0] == "error" else None
    value = reply[3]
    if type(value) is tuple and value[0] == "refused":
        return Refused(value[1])
    if type(value) is tuple and value[0] == "error" and value[1][0] in ("unknown", "node_lost"):
        return (Unknown if value[1][0] == "unknown" else NodeLost)(value[1][1])


def is_loss(request):
    return type(request) is tuple and len(request) == 2 and request[0] == "lose" and isinstance(request[1], Atom)


class Node:
    """A port of a node."""

    def __init__(self, cluster, name, port):
        self.cluster, self.name, self.port = cluster, name, port

    def ask(self, *command):
        command = tuple(Atom(word) if type(word) is str else word for word in command)
        return self.cluster.ask((self.name, self.port, command if len(command) > 1 else command[0]))

    def make(self):
        return self.ask("make")

    def finish(self, pid):
        return self.ask("finish", pid)

    def create(self, name):
        return self.ask("create", name)

    def delete(self, name):
        return self.ask("delete", name)

    def join(self, name, pid):
        return self.ask("join", name, pid)

    def leave(self, name, pid):
        return self.ask("leave", name, pid)

    def get_members(self, name):
        return self.ask("members", name)

    def get_local_members(self, name):
        return self.ask("local_members", name)

    def which_groups(self):
        return self.ask("which_groups")

    def get_closest_pid(self, name, word=0):
        return self.ask("closest", name, word)


# ---- the External Term Format, as far as requests and replies need it


def encode(term):
    # (a plain text is an atom, too)
    if isinstance(term, str):
        text = term.encode()
        return (b"w" + bytes([len(text)]) if len(text) < 256 else b"v" + struct.pack(">H", len(text))) + text
    if isinstance(term, Pid):
        return b"X" + encode(Atom(term.node)) + struct.pack(">III", term.id, term.serial, term.creation)
    if isinstance(term, int):
        if 0 <= term < 256:
            return b"a" + bytes([term])
        if -(2**31) <= term < 2**31:
            return b"b" + struct.pack(">i", term)
        text = abs(term).to_bytes(8, "little").rstrip(b"\0")
        return b"n" + bytes([len(text), term < 0]) + text
    if isinstance(term, bytes):
        return b"m" + struct.pack(">I", len(term)) + term
    if isinstance(term, tuple):
        return b"h" + bytes([len(term)]) + b"".join(map(encode, term))
    if isinstance(term, list):
        return b"l" + struct.pack(">I", len(term)) + b"".join(map(encode, term)) + b"j" if term else b"j"
    raise TypeError(term)


def decode(text, at=0):
    """The term at a place, and the place after it."""
    tag, at = text[at : at + 1], at + 1
    if tag in (b"w", b"v"):
        size = 1 if tag == b"w" else 2
        end = at + size + int.from_bytes(text[at : at + size], "big")
        return Atom(text[at + size : end].decode()), end
    if tag == b"X":
        node, at = decode(text, at)
        return Pid(node, *struct.unpack(">III", text[at : at + 12])), at + 12
    if tag == b"a":
        return text[at], at + 1
    if tag == b"b":
        return struct.unpack(">i", text[at : at + 4])[0], at + 4
    if tag == b"n":
        end = at + 2 + text[at]
        return int.from_bytes(text[at + 2 : end], "little") * (-1 if text[at + 1] else 1), end
    if tag == b"m":
        end = at + 4 + struct.unpack(">I", text[at : at + 4])[0]
        return text[at + 4 : end], end
    if tag == b"k":
        end = at + 2 + struct.unpack(">H", text[at : at + 2])[0]
        return list(text[at + 2 : end]), end
    if tag == b"j":
        return [], at
    if tag in (b"h", b"i", b"l"):
        size = 1 if tag == b"h" else 4
        parts, at, count = [], at + size, int.from_bytes(text[at : at + size], "big")
        for _ in range(count):
            part, at = decode(text, at)
            parts.append(part)
        return (parts, at + 1) if tag == b"l" else (tuple(parts), at)
    raise ValueError(tag)

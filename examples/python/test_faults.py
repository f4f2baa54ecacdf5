"""A service that is missing, ends at once, is killed, is stopped, refuses or ends early; many requests under way, and several threads. The
program is that of PG2SIM."""
import os
import signal
import sys
import tempfile
import threading

HERE = os.path.dirname(os.path.abspath(__file__))
sys.path.insert(0, HERE)
from pg2 import Atom, BadRequest, Cluster, NodeLost, Pid, Refused, ServerEnded, Unknown

PROGRAM = os.environ["PG2SIM"]

# A service that answers the requests of a port so: done, refused and open when it ended; then it is over.
ENDING = """#!%s
import struct, sys
sys.path.insert(0, %r)
from pg2 import Atom, decode, encode
replies = [Atom("ok"), (Atom("refused"), 30), (Atom("error"), (Atom("unknown"), 30))]
for number, reply in enumerate(replies, 1):
    size, = struct.unpack(">I", sys.stdin.buffer.read(4))
    node, port, command = decode(sys.stdin.buffer.read(size)[1:])[0]
    body = b"\\x83" + encode((node, port, number, reply))
    sys.stdout.buffer.write(struct.pack(">I", len(body)) + body)
    sys.stdout.buffer.flush()
sys.stdin.buffer.read(4)
sys.stderr.write("agree yes\\nreplay yes\\nrefused 30\\n")
sys.exit(1)
"""


def fails(error, call, *words):
    """The error of a call, which has to be one of this class."""
    try:
        reply = call(*words)
    except error as it:
        return it
    raise AssertionError("%s in place of %s" % (reply, error))


def missing():
    fails(OSError, Cluster, "/no/such/program", ["a"])


def ending(program):
    cluster = Cluster(program, ["a"])
    assert fails(ServerEnded, cluster.at("a").make).args in [(1,), (None,)]
    fails(ServerEnded, cluster.at("a").make)
    assert cluster.close() == cluster.close()
    assert cluster.close().status == 1


def killed():
    cluster = Cluster(PROGRAM, ["a", "b"])
    cluster.at("a").create("g")
    cluster.process.send_signal(signal.SIGSTOP)
    waiting = [cluster.send((Atom("a"), 1, Atom("make"))) for _ in range(10)]
    fails(TimeoutError, cluster.ask, (Atom("b"), 1, Atom("make")), 0.2)
    fails(TimeoutError, cluster.close, 0.2)
    assert cluster.kill().status == -signal.SIGKILL
    for future in waiting:
        fails(ServerEnded, future.result, 10)
    fails(ServerEnded, cluster.at("a").make)


def continued():
    with Cluster(PROGRAM, ["a"]) as cluster:
        cluster.process.send_signal(signal.SIGSTOP)
        fails(TimeoutError, cluster.ask, (Atom("a"), 1, Atom("make")), 0.2)
        cluster.process.send_signal(signal.SIGCONT)
        assert cluster.at("a").which_groups() == []
        assert cluster.close() == (0, ["agree yes", "replay yes"])


def refused():
    with Cluster(PROGRAM, ["a", "b"]) as cluster:
        a, b = cluster.at("a"), cluster.at("b")
        pid = a.make()
        # An answered change shows that the node is formed: before that it ends no process.
        assert a.create("g") == "ok"
        assert fails(Refused, a.finish, Pid("a", 77, 0, 1)).args == (26,)
        assert fails(BadRequest, a.ask, "no_command").args == (4,)
        assert fails(BadRequest, cluster.ask, Atom("hello")).args == (5,)
        assert fails(BadRequest, cluster.ask, (Atom("a"), 9, Atom("make"))).args == (6,)
        # A bad request has no number of its port: those behind it are answered to who asked.
        mixed = [cluster.send((Atom("a"), 1, command)) for command in [Atom("make"), Atom("none"), Atom("which_groups"), Atom("none"), Atom("make")]]
        assert mixed[0].result(60).node == "a" and mixed[2].result(60) == ["g"] and mixed[4].result(60).node == "a"
        assert fails(BadRequest, mixed[1].result, 60).args == (8,) and fails(BadRequest, mixed[3].result, 60).args == (10,)
        assert cluster.ask((Atom("lose"), Atom("b"))) == ("lost", "b")
        assert fails(NodeLost, b.make).args == ("b",)
        assert a.join("g", pid) == "ok" and a.get_members("g") == [pid]


def full():
    with tempfile.TemporaryDirectory() as folder:
        program = os.path.join(folder, "ending")
        with open(program, "w") as it:
            it.write(ENDING % (sys.executable, HERE))
        os.chmod(program, 0o700)
        cluster = Cluster(program, ["a"])
        first, second, third = [cluster.send((Atom("a"), 1, (Atom("create"), Atom("g")))) for _ in range(3)]
        assert first.result(60) == "ok"
        assert fails(Refused, second.result, 60).args == (30,)
        assert fails(Unknown, third.result, 60).args == (30,)
        assert cluster.close() == (1, ["agree yes", "replay yes", "refused 30"])


def many():
    with Cluster(PROGRAM, ["a", "b"], ports=2) as cluster:
        ports = [(Atom(node), port) for node in "ab" for port in (1, 2)]
        waiting = [(place, cluster.send((*ports[place % 4], Atom("make")))) for place in range(20_000)]
        pids = [(place, future.result(120)) for place, future in waiting]
        assert len({pid for _, pid in pids}) == 20_000
        assert all(pid.node == ports[place % 4][0] for place, pid in pids)


def threads():
    def work(thread):
        node, group = cluster.at("ab"[thread % 2]), Atom("g%d" % thread)
        node.create(group)
        for count in range(1, 16):
            node.join(group, node.make())
            members = node.get_members(group)
            assert len(members) == count and all(pid.node == node.name for pid in members), (thread, count, members)
        done.append(thread)

    done = []
    with Cluster(PROGRAM, ["a", "b"]) as cluster:
        workers = [threading.Thread(target=work, args=(thread,)) for thread in range(8)]
        for worker in workers:
            worker.start()
        for worker in workers:
            worker.join()
        assert cluster.close() == (0, ["agree yes", "replay yes"])
    assert sorted(done) == list(range(8))


missing()
for _ in range(2):
    ending("/bin/false")
killed()
continued()
refused()
full()
many()
threads()
print("ok")

"""A hundred mixed requests, bad ones and the loss of a node among them, each sent once the one before it was replied to: the replies are
the same in each of three runs. The program is that of PG2SIM."""
import os
import random
import sys

sys.path.insert(0, os.path.dirname(os.path.abspath(__file__)))
from pg2 import Atom, BadRequest, Cluster, ClusterError, Pid


def requests(seed):
    draw, names = random.Random(seed), [Atom("a"), Atom("b"), Atom("c")]
    pid = lambda: Pid(draw.choice(names), draw.randrange(1, 4), 0, 1)
    group = lambda: Atom(draw.choice(["g", "h"]))
    commands = [
        lambda: Atom("make"),
        lambda: Atom("which_groups"),
        lambda: (Atom("create"), group()),
        lambda: (Atom("delete"), group()),
        lambda: (Atom("join"), group(), pid()),
        lambda: (Atom("leave"), group(), pid()),
        lambda: (Atom("members"), group()),
        lambda: (Atom("local_members"), group()),
        lambda: (Atom("closest"), group(), draw.randrange(2**32)),
        lambda: Atom("no_command"),
    ]
    for number in range(100):
        yield (Atom("lose"), names[2]) if number == 60 else (draw.choice(names), draw.choice([1, 2, 3]), draw.choice(commands)())


def told(cluster, request):
    try:
        return cluster.ask(request)
    except ClusterError as error:
        return type(error), error.args


def run(seed):
    with Cluster(os.environ["PG2SIM"], ["a", "b", "c"], ports=2) as cluster:
        replies = [told(cluster, request) for request in requests(seed)]
        assert cluster.close().status == 0
    return replies


for seed in range(1, 4):
    first = run(seed)
    assert len(first) == 100
    assert any(reply[0] is BadRequest for reply in first if type(reply) is tuple)
    assert (Atom("lost"), Atom("c")) in first
    assert run(seed) == first == run(seed)
print("ok")

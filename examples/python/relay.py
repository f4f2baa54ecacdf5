#!/usr/bin/env python3
"""Three nodes as processes, and a relay that carries their bytes: python3 examples/python/relay.py. The program is PG2SIM, or ./pg2sim. Each node
creates a group of its own and joins all three; then each is asked for the members, and the answers have to agree."""
import os
import selectors
import struct
import subprocess

from pg2 import Atom, Pid, decode, encode

PROGRAM = [os.environ.get("PG2SIM", "./pg2sim")]
NAMES = ["a", "b", "c"]
TERM, TICK, DENIED, GROUPS, FORMED = 131, 16, 19, 20, 22


class Node:
    def __init__(self, own):
        self.own, self.peers, self.came, self.open, self.replies = own, [name for name in NAMES if name != own], b"", 0, []
        words = ["node", "--own", own, "--peers", ",".join(self.peers), "--made", "1"]
        self.process = subprocess.Popen(PROGRAM + words, stdin=subprocess.PIPE, stdout=subprocess.PIPE, bufsize=0)
        self.say(GROUPS, bytes([TERM]) + encode([]))

    def say(self, first, rest=b""):
        self.process.stdin.write(struct.pack(">IB", len(rest) + 1, first) + rest)

    def ask(self, *command):
        self.open += 1
        self.say(TERM, encode((Atom(self.own), 1, tuple(command))))

    def heard(self):
        self.came += self.process.stdout.read(65536)
        while len(self.came) >= 4 and len(self.came) >= 4 + (size := struct.unpack(">I", self.came[:4])[0]):
            body, self.came = self.came[4 : 4 + size], self.came[4 + size :]
            yield body[0], body


def relay(nodes, until):
    """Carries what each node says to the others, with a tick each two milliseconds, until nothing is open and `until` holds."""
    with selectors.DefaultSelector() as ready:
        for node in nodes.values():
            ready.register(node.process.stdout, selectors.EVENT_READ, node)
        while not until() or any(node.open for node in nodes.values()):
            for key, _ in ready.select(0.002) or [(None, None)]:
                if key is None:
                    for node in nodes.values():
                        node.say(TICK)
                    continue
                node = key.data
                for first, body in node.heard():
                    if first < len(node.peers):
                        peer = nodes[node.peers[first]]
                        peer.say(peer.peers.index(node.own), body[1:])
                    elif first == DENIED:
                        for name in node.peers:
                            nodes[name].say(DENIED, body[1:])
                    elif first == TERM:
                        node.open -= 1
                        node.replies.append(decode(body, 1)[0][3])
                    elif first == FORMED:
                        formed.add(node.own)


formed = set()
nodes = {name: Node(name) for name in NAMES}
relay(nodes, lambda: len(formed) == len(NAMES))
for node in nodes.values():
    node.ask("create", Atom("of_" + node.own))
relay(nodes, lambda: True)
for node in nodes.values():
    for name in NAMES:
        node.ask("join", Atom("of_" + name), Pid(node.own, 1, 0, 0))
relay(nodes, lambda: True)
for node in nodes.values():
    node.replies.clear()
    for name in NAMES:
        node.ask("members", Atom("of_" + name))
relay(nodes, lambda: True)
for node in nodes.values():
    print(node.own, [sorted(pid.node for pid in members) for members in node.replies])
    assert all(sorted(pid.node for pid in members) == NAMES for members in node.replies), node.replies
for node in nodes.values():
    node.process.stdin.close()
    assert node.process.wait() == 0

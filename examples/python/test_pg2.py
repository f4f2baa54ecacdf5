"""Drives 10,000 commands through three nodes, and compares each reply with a model of its own. The program is that of PG2SIM."""
import os
import random
import sys
import time

sys.path.insert(0, os.path.dirname(os.path.abspath(__file__)))
from pg2 import Atom, Cluster

NAMES, GROUPS, COMMANDS = ["a", "b", "c"], [Atom("g"), Atom("h"), ("t", 1), 7], 10_000


def missing(word, name):
    return (Atom("error"), (Atom(word), name))


def plain(name):
    return tuple(Atom(part) if type(part) is str else part for part in name) if type(name) is tuple else name


def sorted_pids(pids):
    return sorted(pids, key=lambda pid: (pid.node, pid.serial, pid.id, pid.creation))


def main():
    draw, groups, made = random.Random(1), {}, []
    with Cluster(os.environ["PG2SIM"], NAMES, ports=2) as cluster:
        for _ in range(COMMANDS):
            node = cluster.at(draw.choice(NAMES), draw.choice([1, 2]))
            name = plain(draw.choice(GROUPS))
            word = draw.choice(["make", "create", "delete", "join", "join", "join", "leave", "get_members", "get_local_members", "which_groups", "get_closest_pid"])
            pid = draw.choice(made) if made else None
            members = groups.get(name)
            if word == "make" or pid is None:
                pid = node.make()
                assert pid.node == node.name and pid not in made, pid
                made.append(pid)
            elif word == "create":
                assert node.create(name) == "ok"
                groups.setdefault(name, [])
            elif word == "delete":
                assert node.delete(name) == "ok"
                groups.pop(name, None)
            elif word in ("join", "leave"):
                reply = getattr(node, word)(name, pid)
                assert reply == ("ok" if members is not None else missing("no_such_group", name)), reply
                if members is not None and word == "join":
                    members.append(pid)
                elif members is not None and pid in members:
                    members.remove(pid)
            elif word == "which_groups":
                reply = node.which_groups()
                assert len(reply) == len(groups) and set(reply) == set(groups), reply
            elif members is None:
                assert getattr(node, word)(name) == missing("no_such_group", name)
            elif word == "get_closest_pid":
                local = sorted_pids(pid for pid in members if pid.node == node.name)
                pick = draw.randrange(2**32)
                near = local or sorted_pids(members)
                assert node.get_closest_pid(name, pick) == (near[pick % len(near)] if near else missing("no_process", name))
            else:
                here = members if word == "get_members" else [pid for pid in members if pid.node == node.name]
                reply = getattr(node, word)(name)
                assert sorted_pids(reply) == sorted_pids(here), (reply, here)
        for pid in made:
            assert cluster.at(pid.node).finish(pid) == "ok"
        deadline = time.time() + 20
        while any(cluster.at(node).get_members(name) for node in NAMES for name in groups):
            assert time.time() < deadline, "processes that have ended stay members"
        assert cluster.close() == (0, ["agree yes", "replay yes"])
    print("ok")


main()

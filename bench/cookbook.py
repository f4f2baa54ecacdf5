"""The examples of the cookbook of scripts, examples/scripts: its pages, the scripts beside them, and lines that are faulty."""
import glob
import os
import re

from shared import ROOT

DATA = f"{ROOT}/examples/scripts"
# How many times a line that pulls is played over a narrow ring, each time but the first behind a put.
PIECES = 500


def text_in(name):
    with open(f"{DATA}/{name}", encoding="utf-8", newline="\n") as it:
        return it.read()


def scripts():
    """The names of the scripts that stand in files of their own, each with what it prints."""
    return sorted(os.path.basename(path)[: -len(".out")] for path in glob.glob(f"{DATA}/*.out"))


def examples():
    """The examples that are played: where each is, its script, and what is printed."""
    for name in scripts():
        yield f"{name}.script", text_in(f"{name}.script"), text_in(f"{name}.out")
    for page in ("SCRIPTS.md", "faults.md"):
        yield from examples_of(f"{DATA}/{page}")
    for number, line in faulty_lines():
        yield f"faulty.lines: {line}", f"node a\nnode b\n{line}\n", f"line 3 refused {number}\n"


def examples_of(page):
    """The scripts of a page, each with the output that stands beneath it."""
    with open(page, encoding="utf-8") as it:
        text = it.read()
    for found in re.finditer(r"(?ms)^```script\n(.*?)^```\n```output\n(.*?)^```$", text):
        yield f"{os.path.basename(page)}, line {text.count(chr(10), 0, found.start()) + 1}", found[1], found[2]


def faulty_lines():
    """Lines that are faulty behind the declarations of two nodes, each with its number."""
    return [line.split(" ", 1) for line in text_in("faulty.lines").split("\n") if line]


def narrowed(script, ring):
    """A script whose first line is a comment, over rings of so many bytes: what a line puts and the next one pulls crosses in many pieces. With it,
    for each of its lines, which line of the script it was."""
    lines, numbers = [f"ring {ring}"], [1]
    for number, line in enumerate(script.rstrip("\n").split("\n")[1:], 2):
        word, *parts = line.split(" ")
        pieces = []
        if word == "pull":
            to, sender, *most = parts
            pieces = [line, " ".join(["put", sender, to, *most])] * (PIECES - 1)
        lines += [*pieces, line]
        numbers += [number] * (len(pieces) + 1)
    return "".join(f"{line}\n" for line in lines), numbers

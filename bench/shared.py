"""What the scripts of this folder share: the top of the repository, what its crates.txt says, and what the toolchain of this machine can do, by its help."""
import os
import re
import subprocess
import sys

ROOT = os.path.dirname(os.path.dirname(os.path.abspath(__file__)))


def uses_of(root):
    """The crates of a repository's crates.txt, each with those of them that its line names."""
    return uses_in(f"{root}/crates.txt")


def uses_in(path):
    """The crates of such a file, each with those of them that its line names."""
    with open(path, encoding="utf-8") as it:
        rows = [row.partition("#")[0].partition(":") for row in it]
    named = {head.split()[0]: re.split(r"[\s,]+", rest) for head, _, rest in rows if head.strip()}
    return {crate: [low for low in lows if low in named] for crate, lows in named.items()}


def below_of(uses):
    """Each crate with all that it reaches."""
    found = {}

    def of(crate):
        if crate not in found:
            found[crate] = set(uses[crate]).union(*map(of, uses[crate]))
        return found[crate]

    for crate in uses:
        of(crate)
    return found


def rt_help():
    """What `rt help` prints, which versions of the toolchain print in different places and with different statuses."""
    try:
        return subprocess.run(["rt", "help"], stdout=subprocess.PIPE, stderr=subprocess.STDOUT, text=True).stdout
    except FileNotFoundError:
        sys.exit("rt, the command of the Rattle toolchain, is not on the PATH")


def ci_takes_names(told):
    """Whether by this help `rt ci` takes names of crates."""
    return bool(re.search(r"^ *rt ci\b.*\bNAME", told, re.M))


def ci_keeps(told):
    """Whether by this help `rt ci` keeps what has passed: then it has a word to prove all again."""
    return "--anew" in told

"""Terms of the model (bench/model.py): their order, their bytes in the External Term Format (docs/PG2.md), and their text (SCRIPTS.md of the cookbook)."""
import re
import struct
from dataclasses import dataclass

# How many levels a term has at most, how many characters an atom, and how many processes a node makes.
MOST_LEVELS, MOST_CHARACTERS, MOST_PROCESSES = 64, 255, 2**28 - 1


# An integer is an int, and a binary is bytes.


@dataclass(frozen=True)
class Atom:
    text: str


@dataclass(frozen=True)
class Tuple:
    items: tuple


@dataclass(frozen=True)
class List:
    items: tuple


@dataclass(frozen=True)
class Pid:
    node: str
    id: int
    serial: int
    creation: int = 1


@dataclass(frozen=True)
class Reference:
    node: str
    creation: int
    words: tuple


OK = Atom("ok")


def pid_of(node, number):
    """The process that a node makes as its so-manyth: its number is Serial and ID together, and the ID has 15 bits."""
    return Pid(node, number % 2**15, number // 2**15)


def number_of(pid):
    """The number of a process among those of its node, or None where no node makes such a process."""
    number = pid.serial * 2**15 + pid.id
    return number if pid.creation == 1 and pid.id < 2**15 and 1 <= number <= MOST_PROCESSES else None


def order(term):
    """What terms are sorted by: as in Erlang, kind by kind; pids by node, serial, id and creation, references by node, creation and words."""
    if isinstance(term, int):
        return 0, term
    if isinstance(term, Atom):
        return 1, term.text
    if isinstance(term, Reference):
        return 2, term.node, term.creation, term.words
    if isinstance(term, Pid):
        return 3, term.node, term.serial, term.id, term.creation
    if isinstance(term, Tuple):
        return 4, len(term.items), [order(item) for item in term.items]
    if isinstance(term, List):
        return 5, [order(item) for item in term.items]
    return 6, term


def levels(term):
    """How many levels a term has; one without parts has one."""
    parts = term.items if isinstance(term, (Tuple, List)) else ()
    return 1 + max(map(levels, parts), default=0)


def written(term):
    """The one written form of a term in the External Term Format, without the version."""
    if isinstance(term, int):
        return written_integer(term)
    if isinstance(term, Atom):
        return written_atom(term.text)
    if isinstance(term, Tuple):
        count = len(term.items)
        return (bytes([104, count]) if count < 256 else struct.pack(">BI", 105, count)) + b"".join(map(written, term.items))
    if isinstance(term, List):
        return struct.pack(">BI", 108, len(term.items)) + b"".join(map(written, term.items)) + b"\x6a" if term.items else b"\x6a"
    if isinstance(term, Pid):
        return b"\x58" + written_atom(term.node) + struct.pack(">III", term.id, term.serial, term.creation)
    if isinstance(term, Reference):
        return struct.pack(">BH", 90, len(term.words)) + written_atom(term.node) + struct.pack(f">{1 + len(term.words)}I", term.creation, *term.words)
    return struct.pack(">BI", 109, len(term)) + term


def written_integer(value):
    if 0 <= value < 256:
        return bytes([97, value])
    if -(2**31) <= value < 2**31:
        return struct.pack(">Bi", 98, value)
    digits = abs(value).to_bytes((abs(value).bit_length() + 7) // 8, "little")
    return bytes([110, len(digits), value < 0]) + digits


def written_atom(text):
    encoded = text.encode()
    return (bytes([119, len(encoded)]) if len(encoded) < 256 else struct.pack(">BH", 118, len(encoded))) + encoded


def text_of(term):
    """The one text of a term, which scripts read and print."""
    if isinstance(term, int):
        return str(term)
    if isinstance(term, Atom):
        return text_of_atom(term.text)
    if isinstance(term, Tuple):
        return "{" + ",".join(map(text_of, term.items)) + "}"
    if isinstance(term, List):
        return "[" + ",".join(map(text_of, term.items)) + "]"
    if isinstance(term, Pid):
        return f"<{text_of_atom(term.node)}.{term.id}.{term.serial}" + (f"/{term.creation}>" if term.creation != 1 else ">")
    if isinstance(term, Reference):
        return f"#<{text_of_atom(term.node)}/{term.creation}" + "".join(f".{word}" for word in term.words) + ">"
    return "<<" + ",".join(map(str, term)) + ">>"


PLAIN_ATOM = re.compile(r"[a-z][a-zA-Z0-9_@]*")


def text_of_atom(text):
    if PLAIN_ATOM.fullmatch(text):
        return text
    return "'" + "".join(text_of_character(character) for character in text) + "'"


def text_of_character(character):
    if character in "'\\":
        return "\\" + character
    return "\\x{%x}" % ord(character) if character < " " or character == "\x7f" else character


class Faulty(Exception):
    """A text is that of no term, or a line has no form."""


NUMBER = re.compile(r"0|[1-9][0-9]*")
CHARACTER = re.compile(r"\\x\{[0-9a-f]{1,2}\}|\\['\\]|[^'\\\x00-\x1f\x7f]")


class Reader:
    """Reads the parts of a line, or of a text, from left to right."""

    def __init__(self, text):
        self.text, self.at, self.level = text, 0, 0

    def skip(self, text):
        """Whether this text is next; then it is passed."""
        is_next = self.text.startswith(text, self.at)
        self.at += len(text) * is_next
        return is_next

    def need(self, text):
        if not self.skip(text):
            raise Faulty

    def match(self, pattern):
        found = pattern.match(self.text, self.at)
        if not found:
            raise Faulty
        self.at = found.end()
        return found[0]

    def is_at_end(self):
        return self.at == len(self.text)

    def number(self, most=2**32 - 1):
        """A decimal number, without sign and leading zeros."""
        digits = self.match(NUMBER)
        if len(digits) > 20 or int(digits) > most:
            raise Faulty
        return int(digits)

    def integer(self):
        """An integer of 64 bits."""
        is_minus = self.skip("-")
        value = self.number(2**63)
        if value == (0 if is_minus else 2**63):
            raise Faulty
        return -value if is_minus else value

    def atom(self):
        """The text of an atom, in quotes exactly where it needs them."""
        if not self.skip("'"):
            text = self.match(PLAIN_ATOM)
        else:
            text = ""
            while not self.skip("'"):
                text += self.character()
            if PLAIN_ATOM.fullmatch(text):
                raise Faulty
        if len(text) > MOST_CHARACTERS:
            raise Faulty
        return text

    def character(self):
        """A character in quotes, which is written in one way alone."""
        written_so = self.match(CHARACTER)
        character = chr(int(written_so[3:-1], 16)) if written_so.startswith("\\x") else written_so[-1]
        if text_of_character(character) != written_so:
            raise Faulty
        return character

    def pid(self):
        self.need("<")
        node = self.atom()
        self.need(".")
        number = self.number()
        self.need(".")
        serial, creation = self.number(), 1
        if self.skip("/"):
            creation = self.number()
            if creation == 1:
                raise Faulty
        self.need(">")
        return Pid(node, number, serial, creation)

    def reference(self):
        self.need("#<")
        node = self.atom()
        self.need("/")
        creation, words = self.number(), []
        while self.skip("."):
            words.append(self.number())
        self.need(">")
        if not 1 <= len(words) <= 3:
            raise Faulty
        return Reference(node, creation, tuple(words))

    def items(self, end, item):
        """Parts with commas between them, to the end."""
        found = []
        while not self.skip(end):
            if found:
                self.need(",")
            found.append(item())
        return tuple(found)

    def term(self):
        self.level += 1
        if self.level > MOST_LEVELS:
            raise Faulty
        found = self.term_by_start()
        self.level -= 1
        return found

    def term_by_start(self):
        """A term, of the kind that its first characters say."""
        if self.skip("{"):
            return Tuple(self.items("}", self.term))
        if self.skip("["):
            return List(self.items("]", self.term))
        if self.skip("<<"):
            return bytes(self.items(">>", lambda: self.number(255)))
        following = self.text[self.at : self.at + 1]
        if following in "<#" and following:
            return self.pid() if following == "<" else self.reference()
        return self.integer() if following in "-0123456789" and following else Atom(self.atom())

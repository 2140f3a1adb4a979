"""The script language: its lines, and what a script prints."""

import re

from .packets import LONGEST_PACKET, Fault, Name, hexadecimal
from .world import World

LONGEST_LINE = 140000


class Unreadable(Exception):
    """A line that the grammar doesn't have."""


def number(least, greatest):
    """Reads a number in a range."""

    def read(word):
        if not re.fullmatch("[0-9]{1,10}", word) or not least <= int(word) <= greatest:
            raise Unreadable
        return int(word)

    return read


def one_of(*words):
    """Reads one of some words."""

    def read(word):
        if word not in words:
            raise Unreadable
        return word

    return read


def octets_of(word):
    """Reads octets."""
    if word == "-":
        return b""
    if not re.fullmatch("([0-9a-fA-F]{2})+", word):
        raise Unreadable
    return bytes.fromhex(word)


class Sourced:
    """Reads what may have a source and a slash before it, and the source that it's of."""

    def __init__(self, read, make):
        self.read = read
        self.make = make

    def __call__(self, word, own):
        """Where the word has no source, its own one is this."""
        source, slash, behind = word.partition("/")
        if slash:
            return self.make(IDENTIFIER(source), self.read(behind))
        return self.make(own, self.read(word))


DIRECTION, NODE = one_of("up", "down"), one_of("ground", "craft")
LANE, WORKER = one_of("s1", "s2", "g1", "g2"), one_of("w1", "w2")
IDENTIFIER, PACKET, COUNT = number(0, 65535), number(0, 9999999999), number(1, 100000)
FLAGS, OCTET, SEQUENCE, ADDRESS = (number(0, n) for n in (15, 255, 16383, 0xFFFFFFFF))
NAME = Sourced(IDENTIFIER, Name)
SOURCED_FLAGS = Sourced(FLAGS, lambda source, flags: (source, flags))

# What each line has behind its first word, or behind its first two of `show`.
GRAMMAR = {
    "open": [DIRECTION, NAME, octets_of],
    "send": [DIRECTION, NAME, IDENTIFIER],
    "plain": [SOURCED_FLAGS, OCTET, OCTET, octets_of],
    "finish": [DIRECTION, NAME],
    "lose": [PACKET],
    "damage": [DIRECTION, octets_of],
    "take": [LANE, PACKET],
    "deliver": [LANE],
    "pass": [LANE, PACKET],
    "tick": [NODE, COUNT],
    "claim": [WORKER],
    "commit": [WORKER],
    "apply": [],
    "work": [],
    "expire": [NODE],
    "retire": [DIRECTION, NAME],
    "restart": [NODE],
    "show released": [],
    "show packet": [PACKET],
    "show memory": [OCTET, ADDRESS, ADDRESS],
    "show clear": [DIRECTION, NAME],
    "show journal": [],
}


def read_word(read, word, own):
    """What a word says, of this source where it names none."""
    return read(word, own) if isinstance(read, Sourced) else read(word)


def read_load(words, own):
    """What a `load` line asks for."""
    readers = [NAME, SEQUENCE, FLAGS, OCTET]
    front, rest = words[:4], words[4:]
    if len(front) < 4 or len(rest) % 2 or not 1 <= len(rest) // 2 <= 255:
        raise Unreadable
    numbers = [read_word(read, word, own) for read, word in zip(readers, front)]
    areas = [(ADDRESS(a), octets_of(b)) for a, b in zip(rest[::2], rest[1::2])]
    length = 15 + sum(8 + len(octets) for _, octets in areas)
    if length > LONGEST_PACKET or not all(octets for _, octets in areas):
        raise Unreadable
    return numbers + [areas]


def read_line(words, own):
    """The name of a line, and what it asks for; names that it gives no source are of this one."""
    if words[0] == "load":
        return "load", read_load(words[1:], own)
    length = 2 if words[0] == "show" else 1
    name, rest = " ".join(words[:length]), words[length:]
    if name == "tick" and len(rest) == 1:
        rest = rest + ["1"]
    if name not in GRAMMAR or len(rest) != len(GRAMMAR[name]):
        raise Unreadable
    return name, [read_word(read, word, own) for read, word in zip(GRAMMAR[name], rest)]


def released_line(world, direction, name, message):
    """What is printed of a message that was released."""
    words = "plain" if name is None else f"{direction} {world.text(name)}"
    return f"{words} {hexadecimal(message)}"


class Session:
    """A script's run: a new world, which answers lines; those that show may be kept for later."""

    def __init__(self, settings, keeps_shows=False):
        self.world = World(settings)
        self.refused = False
        self.kept = [] if keeps_shows else None

    def answer(self, line):
        """What a line prints, line by line. (Each octet is a character here, whatever it is.)"""
        words = [word for word in line.decode("latin-1").split(" ") if word]
        if not words or words[0].startswith("#"):
            return []
        name, asked = read_line(words, self.world.settings.source)
        if name.startswith("show"):
            if self.kept is None:
                return self.show(name, asked)
            self.kept.append((name, asked))
            return []
        printed = []
        try:
            for event, *values in self._events(name, asked):
                printed.append(event(*values))
                self.world.events += 1
        except Fault as fault:
            self.refused = True
            printed.append(f"refused {fault}")
        return printed

    def _events(self, name, asked):
        """The events that a line asks for."""
        world, jobs = self.world, self.world.jobs
        if name == "pass":
            return [(world.take, *asked), (world.deliver, asked[0])]
        if name == "work":
            return [(jobs.claim, "w1"), (jobs.commit, "w1"), (world.apply,)]
        if name in ("claim", "commit"):
            return [(getattr(jobs, name), *asked)]
        return [(getattr(world, name), *asked)]

    def show(self, name, asked):
        """What a `show` line prints."""
        world = self.world
        if name == "show released":
            return [released_line(world, *released) for released in world.released] or ["none"]
        if name == "show journal":
            return [f"journal {world.events}"]
        if name == "show clear":
            return ["clear yes" if world.is_clear(*asked) else "clear no"]
        if name == "show packet":
            packets = world.link.packets
            shown = hexadecimal(packets[asked[0]][1]) if asked[0] < len(packets) else "none"
            return [f"packet {asked[0]} {shown}"]
        memory, start, length = asked
        octets = world.memories.octets.get(memory, b"")
        is_there = memory in world.memories.octets and start + length <= len(octets)
        shown = hexadecimal(octets[start : start + length]) if is_there else "none"
        return [f"memory {memory} {start} {shown}"]


def lines_of(script):
    """The lines of a script, without their ends; `None` for one that is too long."""
    *whole, last = script.split(b"\n")
    for line in whole:
        yield None if len(line) > LONGEST_LINE else line[:-1] if line[-1:] == b"\r" else line
    if last:
        yield None if len(last) > LONGEST_LINE else last


def told_lines(session, script):
    """The lines that a script prints in a session, and its status."""
    printed = []
    for place, line in enumerate(lines_of(script), 1):
        try:
            if line is None:
                raise Unreadable
            printed += session.answer(line)
        except Unreadable:
            return printed + [f"line {place}: unreadable"], 2
    return printed, int(session.refused)


def run(script, settings):
    """What a script prints, and its status."""
    printed, status = told_lines(Session(settings), script)
    return "".join(line + "\n" for line in printed), status

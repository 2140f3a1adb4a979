"""The lines of a script in words, for help, completion and lint."""

from __future__ import annotations

from typing import NamedTuple

#: Each form of a line, and what it does.
FORMS = {
    "open DIRECTION ID HEX": "hands a message to its sender",
    "send DIRECTION ID K": "puts part K of an open message on the link",
    "plain FLAGS SERVICE SUBTYPE HEX": "puts a plain request on the link",
    "load ID SEQ FLAGS MEM ADDR HEX [ADDR HEX ..]": "opens a load of a memory as a message up",
    "finish DIRECTION ID": "closes an open message at its sender",
    "lose N": "takes a packet off the link",
    "damage DIRECTION HEX": "puts octets on the link that are no packet",
    "take LANE N": "takes a packet into the lane's hand",
    "deliver LANE": "gives what is in the lane's hand to the node at its end",
    "pass LANE N": "take, and then deliver",
    "tick NODE [COUNT]": "advances a node's clock",
    "claim WORKER": "gives a worker the oldest job that waits",
    "commit WORKER": "hands in what the worker has read of its job",
    "apply": "executes the oldest job, once it was handed in",
    "work": "claim w1, commit w1 and apply",
    "expire NODE": "ends the node's reception that is overdue longest",
    "retire DIRECTION ID": "frees the identifier of a closed message",
    "restart NODE": "restarts a node",
    "show released": "the messages that were released",
    "show packet N": "the octets of a packet",
    "show memory MEM ADDR LEN": "octets of a memory",
    "show clear DIRECTION ID": "whether nothing is left of a message",
    "show journal": "how many events have happened",
    "show link": "what the link holds, and the lanes' hands",
    "show senders": "the messages that are open",
    "show receptions": "the messages of which parts are kept, and which lack",
    "show jobs": "the jobs that aren't executed",
}


class Kind(NamedTuple):
    """What a word in capitals stands for, its words if it is one of some, and the range of a number."""

    told: str
    words: tuple[str, ...] = ()
    most: int = 0
    least: int = 0


KINDS = {
    "DIRECTION": Kind("from ground to the spacecraft, or back", ("up", "down")),
    "NODE": Kind("ground or the spacecraft", ("ground", "craft")),
    "LANE": Kind("s1 and s2 carry up, g1 and g2 down", ("s1", "s2", "g1", "g2")),
    "WORKER": Kind("one of the spacecraft's workers", ("w1", "w2")),
    "ID": Kind("a message, to 65535, or SOURCE/ID", most=65_535),
    "SOURCE": Kind("the source of a message or a request, to 65535", most=65_535),
    "K": Kind("a part, from 1", most=65_535),
    "N": Kind("a packet, from 0", most=9_999_999_999),
    "COUNT": Kind("ticks, from 1 to 100000", most=100_000, least=1),
    "FLAGS": Kind("the sum of 1 acceptance, 2 start, 4 progress, 8 completion; of plain also SOURCE/FLAGS", most=15),
    "SERVICE": Kind("a request's type, to 255", most=255),
    "SUBTYPE": Kind("a request's subtype, to 255", most=255),
    "SEQ": Kind("the sequence count of a request, to 16383", most=16_383),
    "MEM": Kind("a memory, to 255", most=255),
    "ADDR": Kind("an address in a memory, from 0", most=4_294_967_295),
    "LEN": Kind("how many octets", most=4_294_967_295),
    "HEX": Kind("octets, as pairs of hexadecimal digits, or - for none"),
}

#: The faults of events, and what to do about them.
FAULTS = {
    "InUse": "the name isn't free: its message is open, or wasn't retired",
    "Short": "the message isn't longer than a part",
    "Long": "a message has 65,542 octets at most, and what is sent in one piece 23 more than a part",
    "TooMany": "as many messages are open as the configuration allows",
    "NotOpen": "no such message is open; show senders tells which are",
    "NoSuchPart": "the message has no part of that number",
    "NotHeld": "the link holds no such packet in the lane's direction; show link tells which it holds",
    "HandFull": "the lane has a packet in its hand, or the worker a job",
    "HandEmpty": "the lane has no packet in its hand, or the worker no job",
    "NothingDue": "no reception of the node has waited for the timeout",
    "NoJob": "no job waits",
    "NotReady": "the oldest job wasn't committed yet",
    "NotClear": "a part of the message is on the link or in a hand, or its receiver keeps one",
    "LooksWhole": "these octets are a packet, so noise can't have left them",
    "StillOpen": "the message's sender is open; finish closes it",
    "ClockEnd": "the clock is at its greatest value",
    "PartRequest": "a telecommand of service 13, subtype 9, 10 or 11, carries a part; open and send put it",
}


def fits(place: str, word: str) -> bool:
    """Whether a word may stand at a place of a form, as far as is known here."""
    return word in KINDS[place].words if place in KINDS and KINDS[place].words else place in (word, *KINDS)


def wanted(words: list[str]) -> list[str]:
    """What may stand behind these words: words themselves, or the names of kinds."""
    found = []
    for form in FORMS:
        shape = [it.strip("[]") for it in form.split() if it.strip("[]") != ".."]
        if len(shape) > len(words) and all(map(fits, shape, words)):
            found.append(shape[len(words)])
    return list(dict.fromkeys(found))

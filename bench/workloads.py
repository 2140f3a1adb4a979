"""The scripts by which the program is measured.

A workload is a function that makes the lines of its script; what it says of itself is its row in
the table. Without arguments it is as large as it is measured. WORKLOADS has each one with its
configuration, and with arguments that make it small, so that its output can be compared in no time.
"""

import random
from typing import Callable, NamedTuple, Optional

# A part size, and a memory of the most octets that there can be.
GREATEST_MEMORY = """part_size = 1024

[[memory]]
id = 1
size = 1048576
"""

# The smallest parts that there can be, of which a message has the most.
SMALLEST_PARTS = "part_size = 4\n"

# As many open receptions as there can be, and a timeout that doesn't come.
MANY_RECEPTIONS = """receptions = 64
outgoing = 64
timeout = 65535
"""

# The most octets of a message and of a script.
LONGEST_MESSAGE = 65542
LONGEST_SCRIPT = 16777216
# The most octets of an area whose load, of this one area, is a packet of 65,542 octets.
LONGEST_AREA = 65519


def octets(seed, length):
    """So many octets, as hexadecimal digits."""
    return random.Random(seed).randbytes(length).hex()


def sent(length, part_size=8):
    """A message of so many octets, opened and sent: its lines, and how many parts it has."""
    parts = -(-length // part_size)
    lines = [f"open up 7 {octets(7, length)}"]
    return lines + [f"send up 7 {k}" for k in range(1, parts + 1)], parts


def in_order(length=LONGEST_MESSAGE):
    """The longest message there is, its parts delivered in their order"""
    lines, parts = sent(length)
    return lines + [f"pass s1 {n}" for n in range(parts)] + ["show released"]


def backwards(length=LONGEST_MESSAGE):
    """The same message, its parts delivered in the opposite order"""
    lines, parts = sent(length)
    return lines + [f"pass s1 {n}" for n in reversed(range(parts))] + ["show released"]


def shuffled(length=LONGEST_MESSAGE):
    """The same message, its parts delivered in a shuffled order"""
    lines, parts = sent(length)
    order = list(range(parts))
    random.Random(1).shuffle(order)
    return lines + [f"pass s1 {n}" for n in order] + ["show released"]


def repeats(length=LONGEST_MESSAGE):
    """The same message, each part but its last delivered twenty times"""
    lines, parts = sent(length)
    return lines + [f"pass s1 {n}" for n in range(parts - 1)] * 20


def one_part_again(length=LONGEST_MESSAGE, most=LONGEST_SCRIPT):
    """16 MiB: the longest message in parts of 4 octets, all but one delivered, and one of them again"""
    lines, parts = sent(length, 4)
    lines += [f"pass s1 {n}" for n in range(parts - 1)]
    left = most - sum(len(line) + 1 for line in lines)
    return lines + ["pass s1 9"] * (left // 10)


def eight_messages(length=60000):
    """Eight messages of 60,000 octets, sent and delivered in turns"""
    names, parts = range(8), length // 8
    lines = [f"open up {i} {octets(i, length)}" for i in names]
    lines += [f"send up {i} {k}" for k in range(1, parts + 1) for i in names]
    lines += [f"pass s{n % 2 + 1} {n}" for n in range(len(names) * parts)]
    return lines + ["show released"]


def loads(count=112):
    """112 loads of the longest area there can be, their parts of 1,024 octets sent and delivered"""
    lines, packets = [], 0
    for n in range(count):
        address = n % 16 * LONGEST_AREA
        lines.append(f"load {n} {n} 0 1 {address} {octets(n, LONGEST_AREA)}")
        for part in range(1, 66):
            lines += [f"send up {n} {part}", f"pass s1 {packets}"]
            packets += 1
        lines.append(f"finish up {n}")
    return lines


def openings(count=128):
    """128 messages of 65,000 octets, opened and closed"""
    lines = []
    for n in range(count):
        lines += [f"open up {n} {octets(n, 65000)}", f"finish up {n}"]
    return lines


def retirements(count=100000):
    """100,000 messages under one identifier: each is opened, a part sent and lost, closed, retired"""
    opened = f"open up 7 {octets(7, 9)}"
    lines = []
    for n in range(count):
        lines += [opened, "send up 7 1", f"lose {n}", "finish up 7", "retire up 7"]
    return lines


def first_parts(receptions):
    """So many messages, the first part of each delivered, so that its reception is open."""
    lines = []
    for n in range(receptions):
        lines += [f"open up {n} {octets(n, 9)}", f"send up {n} 1", f"pass s1 {n}"]
    return lines


def renewed(receptions, rounds):
    """Receptions whose first part comes again in turn; each time the oldest is asked for."""
    lines = first_parts(receptions)
    for n in range(rounds):
        lines += ["tick craft", f"pass s1 {n % receptions}", "expire craft"]
    return lines


def one_reception(rounds=450000):
    """One open reception, renewed 450,000 times, with a tick and an expiry that is refused"""
    return renewed(1, rounds)


def sixty_four_receptions(rounds=450000):
    """64 open receptions, renewed in turn as often, with as many ticks and expiries"""
    return renewed(64, rounds)


def one_of_many(rounds=900000):
    """64 open receptions, of which one is renewed 900,000 times within one tick"""
    return first_parts(64) + ["pass s1 63"] * rounds


def many_in_turn(rounds=900000):
    """64 open receptions, renewed in turn 900,000 times within one tick"""
    return first_parts(64) + [f"pass s1 {n % 64}" for n in range(rounds)]


def reports(count):
    """So many dumps, each answered by a report that is opened downwards and finished."""
    lines = []
    for n in range(count):
        lines += ["plain 0 6 5 0101000000100003", f"pass s1 {n}", "work", f"finish down {n}"]
    return lines


def ten_thousand_reports(count=10000):
    """10,000 dumps, each answered by a report that is opened and finished"""
    return reports(count)


def twenty_thousand_reports(count=20000):
    """20,000 dumps, each answered by a report that is opened and finished"""
    return reports(count)


def sixty_thousand_reports(count=60000):
    """60,000 dumps, each answered by a report that is opened and finished"""
    return reports(count)


def reports_of_sources(sources=1000, count=60):
    """60,000 dumps, 60 of each of 1,000 sources, each answered by a report that is opened and finished"""
    lines = []
    for n in range(count):
        for source in range(sources):
            packet = n * sources + source
            lines += [f"plain {source}/0 6 5 0101000000100003", f"pass s1 {packet}", "work"]
            lines.append(f"finish down {source}/{n}")
    return lines


def checksums(count=40):
    """Noise of 1,047 octets, delivered 4,000 times, and 40 checks of a hundred times 65,535 octets"""
    noise = bytes.fromhex("1864c0000410") + random.Random(1).randbytes(1041)
    check = "0164" + "00000000ffff" * 100
    lines = [f"damage up {noise.hex()}"]
    lines += ["pass s1 0"] * (100 * count)
    for n in range(count):
        lines += [f"plain 0 6 9 {check}", f"pass s1 {2 * n + 1}", "work"]
    return lines


def many_ticks(count=100):
    """100 lines that ask for 100,000 ticks each"""
    return ["tick craft 100000"] * count


def short_lines(most=LONGEST_SCRIPT):
    """16 MiB of short lines: comments, and as many that print"""
    lines, size = [], 0
    while True:
        line = "show journal" if len(lines) % 2 else "# a comment"
        size += len(line) + 1
        if size > most:
            return lines
        lines.append(line)


def long_lines(count=256):
    """16 MiB in 256 long lines: comments"""
    return ["#" + "0" * 65534] * count


def shown_memory(times=16):
    """A memory of 1 MiB, shown whole sixteen times"""
    return ["show memory 1 0 1048576"] * times


def empty_script():
    """An empty script"""
    return []


class Workload(NamedTuple):
    """A script to measure, its configuration if it has one, and what makes it small."""

    lines: Callable
    config: Optional[str]
    small: dict

    @property
    def name(self):
        """A name, as of a file."""
        return self.lines.__name__

    @property
    def title(self):
        """Its row in the table."""
        return self.lines.__doc__

    def script(self, is_small=False):
        """Its text."""
        lines = self.lines(**self.small) if is_small else self.lines()
        return "".join(line + "\n" for line in lines)


WORKLOADS = [
    Workload(in_order, None, {"length": 2001}),
    Workload(backwards, None, {"length": 2002}),
    Workload(shuffled, None, {"length": 2003}),
    Workload(repeats, None, {"length": 501}),
    Workload(one_part_again, SMALLEST_PARTS, {"length": 501, "most": 20000}),
    Workload(eight_messages, None, {"length": 600}),
    Workload(one_reception, MANY_RECEPTIONS, {"rounds": 500}),
    Workload(sixty_four_receptions, MANY_RECEPTIONS, {"rounds": 500}),
    Workload(one_of_many, MANY_RECEPTIONS, {"rounds": 500}),
    Workload(many_in_turn, MANY_RECEPTIONS, {"rounds": 500}),
    Workload(ten_thousand_reports, None, {"count": 100}),
    Workload(twenty_thousand_reports, None, {"count": 200}),
    Workload(sixty_thousand_reports, None, {"count": 300}),
    Workload(reports_of_sources, None, {"sources": 30, "count": 10}),
    Workload(many_ticks, None, {"count": 1}),
    Workload(short_lines, None, {"most": 20000}),
    Workload(long_lines, None, {"count": 2}),
    Workload(openings, None, {"count": 2}),
    Workload(retirements, None, {"count": 200}),
    Workload(loads, GREATEST_MEMORY, {"count": 1}),
    Workload(checksums, GREATEST_MEMORY, {"count": 1}),
    Workload(shown_memory, GREATEST_MEMORY, {"times": 1}),
    Workload(empty_script, None, {}),
]

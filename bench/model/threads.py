"""A script with threads: what `lpt threads` prints where all that is open gets carried.

What the threads do in an order of their own is done here in one. So a script must be one that prints
the same in whatever order they come: no two loads of one octet, no dump or check, no limit of open
receptions that is reached, and no timer that ticks.
"""

from .parts import part_count
from .scripts import Session, told_lines

LANES = {"up": "s1", "down": "g1"}


def send_all(world):
    """Each open message is sent whole and finished: whether there was one."""
    opened = [(direction, name) for direction in LANES for name in world.sender(direction).outgoing]
    for direction, name in opened:
        message = world.sender(direction).outgoing[name]
        for number in range(1, part_count(message, world.settings.part_size) + 1):
            world.send(direction, name, number)
        world.finish(direction, name)
    return bool(opened)


def carry_all(world, first):
    """Each packet from a number on that the link holds is carried once more: the next number."""
    link, number = world.link, first
    for lane in sorted(link.hands):
        world.deliver(lane)
    while number < len(link.packets):
        if link.holds(number):
            lane = LANES[link.packets[number][0]]
            world.take(lane, number)
            world.deliver(lane)
        number += 1
    return number


def work_all(world):
    """Each job is executed: whether a worker had one, or one was left."""
    jobs, found = world.jobs, bool(world.jobs.hands)
    for worker in sorted(jobs.hands):
        jobs.commit(worker)
    while jobs.queue:
        found = True
        if not jobs.queue[0].is_claimed:
            jobs.claim("w1")
            jobs.commit("w1")
        world.apply()
    return found


def run_all(world):
    """What the ten threads do between them, until nothing is left to do."""
    carried, is_busy = 0, True
    while is_busy:
        is_busy = send_all(world)
        carried = carry_all(world, carried)
        is_busy = work_all(world) or is_busy or carried < len(world.link.packets)


def summary(world):
    """The large messages that were released, and the counts."""
    large = [released for released in world.released if released[1] is not None]
    large.sort(key=lambda released: (released[0] != "up", released[1]))
    printed = [f"released {way} {world.text(name)} {len(octets)}" for way, name, octets in large]
    return printed + [f"plain {len(world.released) - len(large)}", f"applied {world.executed}"]


def run_threads(script, settings):
    """What a script with threads prints, and its status."""
    session = Session(settings, keeps_shows=True)
    printed, status = told_lines(session, script)
    if status != 2:
        run_all(session.world)
        printed += summary(session.world)
        for name, asked in session.kept:
            printed += session.show(name, asked)
    return "".join(line + "\n" for line in printed), status

"""The state of an end as octets: what of it outlasts a restart."""

from .nodes import Node
from .packets import Name, checksum
from .settings import Settings  # noqa: F401: given out with these

TAG, VERSION = b"LPTS", 2
LEAST = 45
GREATEST_BOOT = 2**64 - 1
# What can be wrong with octets, in the order of the tests.
FAULTS = ["Short", "Tag", "Version", "Length", "Side", "Config", "Checksum", "Boot", "Order"]


class StateFault(ValueError):
    """Octets aren't the state of this end."""


def runs(names):
    """Names as ascending runs: a source, the first identifier and the last."""
    made = []
    for name in sorted(names):
        if made and made[-1][0] == name.source and made[-1][2] + 1 == name.identifier:
            made[-1][2] = name.identifier
        else:
            made.append([name.source, name.identifier, name.identifier])
    return made


def configured(settings):
    """The octets of what an end is bound to of a configuration."""
    front = settings.apid.to_bytes(2, "big") + settings.source.to_bytes(2, "big")
    return front + settings.part_size.to_bytes(4, "big") + bytes([settings.mode == "strict"])


def spelled(node, settings):
    """The octets of a node's state, by a configuration of its own."""
    sent, received = runs([*node.outgoing, *node.closed]), runs(node.ended)
    octets = TAG + bytes([VERSION, node.is_craft]) + configured(settings)
    octets += node.boot.to_bytes(8, "big") + node.clock.to_bytes(4, "big")
    octets += len(sent).to_bytes(8, "big") + len(received).to_bytes(8, "big")
    octets += b"".join(it.to_bytes(2, "big") for run in sent + received for it in run)
    return octets + checksum(octets)


def ascend(found):
    """Whether runs ascend, with a free name between those of one source."""
    ends = [(source, last + 1) for source, _, last in found]
    return all(first <= last for _, first, last in found) and all(
        before < (source, first) for before, (source, first, _) in zip(ends, found[1:])
    )


def read(settings, is_craft, octets):
    """The node that a restart leaves of the one whose state this is, within the limits of these settings."""

    def want(is_so, fault):
        if not is_so:
            raise StateFault(fault)

    want(len(octets) >= LEAST, "Short")
    want(octets[:4] == TAG, "Tag")
    want(octets[4] == VERSION, "Version")
    counts = [int.from_bytes(octets[at : at + 8], "big") for at in (27, 35)]
    want(len(octets) == LEAST + 6 * sum(counts), "Length")
    want(octets[5] == is_craft, "Side")
    want(octets[6:15] == configured(settings), "Config")
    want(octets[-2:] == checksum(octets[:-2]), "Checksum")
    boot = int.from_bytes(octets[15:23], "big")
    want(boot < GREATEST_BOOT, "Boot")
    words = [int.from_bytes(octets[at : at + 2], "big") for at in range(43, len(octets) - 2, 2)]
    found = [tuple(words[at : at + 3]) for at in range(0, len(words), 3)]
    sent, received = found[: counts[0]], found[counts[0] :]
    want(ascend(sent) and ascend(received), "Order")
    node = Node(settings, is_craft)
    node.boot, node.clock = boot + 1, int.from_bytes(octets[23:27], "big")
    for names, those in ((node.closed, sent), (node.ended, received)):
        names.update(Name(source, it) for source, first, last in those for it in range(first, last + 1))
    return node

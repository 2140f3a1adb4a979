"""Damages octets and lines."""


def flip_bit(chance, octets):
    """One bit is another."""
    octets[chance.randrange(len(octets))] ^= 1 << chance.randrange(8)


def set_octet(chance, octets):
    """One octet is another, often one that may mean something."""
    octets[chance.randrange(len(octets))] = chance.choice(b"0123459f -/#\r\n\t\0\xff=[]{}\"'.")


def put_octets(chance, octets):
    """Some octets are put in."""
    at = chance.randrange(len(octets))
    octets[at:at] = chance.choice([b" ", b"0", b"9" * 9, b"\n", b"\r", b"-", b"/", b"2/", chance.randbytes(3)])


def take_octets(chance, octets):
    """Some octets are taken out."""
    at = chance.randrange(len(octets))
    del octets[at : at + chance.choice([1, 1, 2, 5])]


def cut(chance, octets):
    """The end is cut off."""
    del octets[chance.randrange(len(octets)) :]


def change_lines(chance, octets):
    """Lines are taken out, doubled, put into another order, or repeated many times."""
    lines = octets.split(b"\n")
    at, other = chance.randrange(len(lines)), chance.randrange(len(lines))
    way = chance.randrange(4)
    if way == 0:
        del lines[at]
    elif way == 1:
        lines.insert(other, lines[at])
    elif way == 2:
        lines[at], lines[other] = lines[other], lines[at]
    else:
        lines[at:at] = lines[at : at + 4] * chance.choice([2, 10, 50])
    octets[:] = b"\n".join(lines)


CHANGES = [flip_bit, set_octet, put_octets, take_octets, cut]


def changed(chance, octets, ways):
    """Octets after one change, or a few."""
    octets = bytearray(octets)
    for _ in range(chance.choice([1, 1, 1, 2, 4])):
        if octets:
            chance.choice(ways)(chance, octets)
    return bytes(octets)

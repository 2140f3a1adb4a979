"""Writes random scripts for threads."""

from .writing import Writer


class ThreadsWriter(Writer):
    """Writes a random script for threads: in whatever order they come, it prints the same."""

    # Each load has so many octets of the memory for itself.
    ROOM = 12

    def __init__(self, chance, settings):
        super().__init__(chance, settings, keeps_shows=True)
        self.loads = 0

    def script(self):
        """A whole script, with what it shows after the threads."""
        parts = {
            self.plain: 2,
            self.own_load: 4,
            self.own_message: 4,
            self.send: 3,
            self.deliver: 2,
            self.one_step: 3,
            self.restart: 1,
            self.noise: 2,
            self.show_after: 2,
        }
        for _ in range(self.chance.randrange(1, 25)):
            self.chance.choices(list(parts), list(parts.values()))[0]()
        for name, size, _ in self.settings.memory:
            self.add("show", "memory", name, 0, size)
        return "".join(line + "\n" for line in self.lines).encode()

    def plain(self):
        """A request that memories don't know."""
        self.add("plain", self.flags(), 17, self.chance.randrange(256), "-")

    def own_load(self):
        """A load of octets that no other load has."""
        start = self.loads * self.ROOM
        self.loads += 1
        name, flags = self.name(40), self.chance.randrange(16)
        octets = self.octets(1, self.ROOM).hex()
        self.add("load", name, self.loads, flags, 1, start, octets)

    def own_message(self):
        """A message that is no request."""
        octets = self.octets(1, 40 * self.settings.part_size)
        self.add("open", self.direction(), self.name(40), "00" + octets.hex())

    def show_after(self):
        """A line that shows what is left of a message."""
        self.add("show", "clear", self.direction(), self.name(40))

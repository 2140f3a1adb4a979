"""Writes random scripts."""

import model


class Writer:
    """Writes a random script, and knows from the model what its lines so far have done."""

    def __init__(self, chance, settings, keeps_shows=False):
        self.chance = chance
        self.settings = settings
        self.session = model.Session(settings, keeps_shows)
        self.world = self.session.world
        self.lines = []

    def add(self, *words):
        """Adds a line."""
        self.lines.append(" ".join(map(str, words)))
        self.session.answer(self.lines[-1].encode())

    def script(self):
        """A whole script, at whose end all is shown."""
        parts = {
            self.plain: 6,
            self.load: 3,
            self.message: 4,
            self.send: 5,
            self.deliver: 6,
            self.work: 6,
            self.one_step: 8,
            self.retire: 3,
            self.restart: 1,
            self.noise: 2,
            self.clock: 2,
            self.show: 2,
        }
        for _ in range(self.chance.randrange(1, 80)):
            self.chance.choices(list(parts), list(parts.values()))[0]()
        self.show_all()
        return "".join(line + "\n" for line in self.lines).encode()

    # -- Words

    def source(self):
        """One of three sources, most often the configured one."""
        return self.chance.choice([self.settings.source] * 3 + [0, 2])

    def name(self, count):
        """One of so many identifiers of one of three sources, as a word."""
        return self.word(model.Name(self.source(), self.chance.randrange(count)))

    def word(self, name):
        """A name as a script may write it: its source may be left out, where it's the configured one."""
        is_whole = self.chance.random() < 0.1
        return name.text(None if is_whole else self.settings.source)

    def flags(self):
        """A plain request's flags, now and then with a source."""
        flags = self.chance.randrange(16)
        return flags if self.chance.random() < 0.7 else f"{self.source()}/{flags}"

    def octets(self, least, most):
        """So many random octets, or somewhat more."""
        return self.chance.randbytes(self.chance.randint(least, most))

    def direction(self):
        """A direction."""
        return self.chance.choice(["up", "down"])

    def packet(self):
        """The number of a packet, which is there most often."""
        return self.chance.randrange(len(self.world.link.packets) + 2)

    def open_message(self, direction):
        """The name of an open message, most often, as a word, and of how many parts that is."""
        outgoing = self.world.sender(direction).outgoing
        if not outgoing or self.chance.random() < 0.1:
            return self.name(12), 3
        name = self.chance.choice(sorted(outgoing))
        return self.word(name), model.part_count(outgoing[name], self.settings.part_size)

    def area(self, is_load):
        """An address and octets, as many as an area may have, which may end past the memory."""
        chance, size = self.chance, self.settings.memory[0][1]
        length = chance.choice([1, 2, 2, 3, 4, 5, 16]) if chance.random() < 0.97 else 0
        if not is_load and chance.random() < 0.1:
            return 0, bytes(chance.choice([65512, 65513, 65514, 65535]))
        start = chance.randrange(size) if chance.random() < 0.8 else size - length
        return max(start, 0), chance.randbytes(length)

    def body(self, is_load):
        """The body of a request to a memory, in which something may be wrong."""
        chance = self.chance
        areas = [self.area(is_load) for _ in range(chance.choice([1, 1, 1, 2, 3]))]
        memory = chance.choice([1, 1, 1, 1, 1, 1, 2, 9])
        body = bytearray(model.load_body(memory, areas))
        if not is_load:
            fields = [a.to_bytes(4, "big") + len(o).to_bytes(2, "big") for a, o in areas]
            body = bytearray([memory, len(areas)]) + b"".join(fields)
        if chance.random() < 0.15:
            body[chance.choice([1, len(body) - 1, chance.randrange(len(body))])] ^= 1
        return bytes(body) + (b"\0" if chance.random() < 0.02 else b"")

    # -- Lines

    def plain(self):
        """A request in a packet of its own, which most often is delivered."""
        subtype = self.chance.choice([2, 2, 5, 5, 9, 9, 3, 10])
        service = self.chance.choice([6] * 12 + [13, 17])
        body = self.body(subtype == 2)
        before = len(self.world.link.packets)
        self.add("plain", self.flags(), service, subtype, body.hex())
        if len(self.world.link.packets) > before and self.chance.random() < 0.8:
            self.add("pass", self.chance.choice(["s1", "s2"]), before)

    def load(self):
        """A load, as a message."""
        chance, areas = self.chance, []
        for _ in range(chance.choice([1, 1, 2, 3])):
            areas += [chance.randrange(self.settings.memory[0][1] + 2), self.octets(1, 12).hex()]
        memory, flags = chance.choice([1, 1, 1, 1, 9]), chance.randrange(16)
        self.add("load", self.name(40), chance.randrange(16384), flags, memory, *areas)

    def message(self):
        """A message of random octets, or one that is a request to a memory."""
        chance, size = self.chance, self.settings.part_size
        octets = self.octets(max(size - 1, 1), 5 * size)
        if chance.random() < 0.05:
            octets = self.octets(65000, 65545)
        elif chance.random() < 0.4:
            apid = self.settings.apid if chance.random() < 0.9 else 7
            subtype = chance.choice([2, 5, 9])
            body = self.body(subtype == 2)
            flags = chance.randrange(16)
            source = self.source() if chance.random() < 0.7 else chance.randrange(65536)
            octets = model.write_command(apid, 3, flags, 6, subtype, source, body)
        self.add("open", self.direction(), self.name(12), octets.hex() or "-")

    def send(self):
        """Some parts of a message, or all of them."""
        direction = self.direction()
        name, count = self.open_message(direction)
        if count > 70:
            parts = [self.chance.randrange(count + 2) for _ in range(5)]
        elif self.chance.random() < 0.7:
            parts = range(1, count + 1)
        else:
            parts = [self.chance.randrange(count + 2)]
        for part in parts:
            self.add("send", direction, name, part)

    def deliver(self):
        """Packets that came last, in any order, some of them left out or twice."""
        packets = self.world.link.packets
        last = list(range(max(0, len(packets) - self.chance.choice([3, 10, 40])), len(packets)))
        if self.settings.mode == "any" or self.chance.random() < 0.5:
            self.chance.shuffle(last)
        if self.chance.random() < 0.4:
            last = [self.chance.choice(last) for _ in last]
        for number in last:
            lanes = ["s1", "s2"] if packets[number][0] == "up" else ["g1", "g2"]
            self.add("pass", self.chance.choice(lanes), number)

    def work(self):
        """Jobs are executed."""
        for _ in range(self.chance.choice([1, 1, 2, 5])):
            self.add("work")

    def one_step(self):
        """A single step of a worker, a lane, the link or a sender."""
        chance, lane = self.chance, self.chance.choice(["s1", "s2", "g1", "g2"])
        direction = self.direction()
        lines = [
            ["claim", chance.choice(["w1", "w2"])],
            ["commit", chance.choice(["w1", "w2"])],
            ["apply"],
            ["take", lane, self.packet()],
            ["deliver", lane],
            ["lose", self.packet()],
            ["finish", direction, self.open_message(direction)[0]],
        ]
        self.add(*chance.choice(lines))

    def retire(self):
        """A name that was used is retired, most often after all that is left of it is gone."""
        chance, direction = self.chance, self.direction()
        sender = self.world.sender(direction)
        unused = model.Name(self.settings.source, 7)
        name = chance.choice(sorted(sender.closed.union(sender.outgoing)) or [unused])
        if chance.random() < 0.8:
            self.clear(direction, name)
        self.add("retire", direction, self.word(name))
        if chance.random() < 0.5:
            octets = self.octets(self.settings.part_size + 1, 3 * self.settings.part_size)
            self.add("open", direction, self.word(name), octets.hex())

    def clear(self, direction, name):
        """A message is closed, its packets are lost, its reception ends, or nearly all of that."""
        chance, world = self.chance, self.world
        for lane in sorted(world.link.hands):
            if chance.random() < 0.9:
                self.add("deliver", lane)
        for number, packet in enumerate(world.link.packets):
            if world.link.holds(number) and world.is_part_of(packet, direction, name):
                if chance.random() < 0.98:
                    self.add("lose", number)
        if name in world.receiver(direction).receptions and chance.random() < 0.9:
            node = "craft" if direction == "up" else "ground"
            if chance.random() < 0.3:
                self.add("restart", node)
            else:
                self.add("tick", node, self.settings.timeout)
                self.add("expire", node)
        if name in world.sender(direction).outgoing and chance.random() < 0.9:
            self.add("finish", direction, self.word(name))

    def restart(self):
        """A node is started anew, now and then between a worker's claim and its commit."""
        worker, has_claimed = self.chance.choice(["w1", "w2"]), self.chance.random() < 0.5
        if has_claimed:
            self.add("claim", worker)
        self.add("restart", self.chance.choice(["ground", "craft"]))
        if has_claimed and self.chance.random() < 0.7:
            self.add("commit", worker)

    def noise(self):
        """Octets that are no packet most often, and others now and then."""
        octets, packets = self.octets(0, 30), self.world.link.packets
        if packets and self.chance.random() < 0.6:
            octets = bytearray(self.chance.choice(packets)[1])
            if octets and self.chance.random() < 0.8:
                octets[self.chance.randrange(len(octets))] ^= 1 << self.chance.randrange(8)
        self.add("damage", self.direction(), octets.hex() or "-")

    def clock(self):
        """Time goes on, and something may be overdue."""
        node = self.chance.choice(["ground", "craft"])
        self.add("tick", node, self.chance.choice([1, 2, 5, 5, 11, 100]))
        self.add("expire", node)

    def show(self):
        """Something is shown."""
        memory = self.chance.choice(self.settings.memory)
        start = self.chance.randrange(memory[1] + 1)
        lines = [
            ["show", "packet", self.packet()],
            ["show", "memory", memory[0], start, self.chance.randrange(40)],
            ["show", "clear", self.direction(), self.name(12)],
            ["show", "journal"],
        ]
        self.add(*self.chance.choice(lines))

    def show_all(self):
        """All is shown, but for the packets of a long script."""
        for number in range(min(len(self.world.link.packets), 200)):
            self.add("show", "packet", number)
        for name, size, _ in self.settings.memory:
            self.add("show", "memory", name, 0, size)
        for line in ("released", "journal", "clear up 7", "clear up 2/7", "clear down 0"):
            self.add("show", line)

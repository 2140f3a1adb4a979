"""Random texts of layout files: most are nearly right, and each way to write TOML stands in some."""

from __future__ import annotations

import random

KEYS = {
    "telemetry": ["counter", "destination", "time", "epoch"],
    "telecommands": ["source"],
}
COMMON = ["checksum", "version", "spare", "transaction_id", "part_number", "part_size"]
BITS, PART_BITS = ["0", "8", "16", "0x10"], ["16", "32", "+32"]
VALUES = {
    "checksum": ["true", "false"], "version": ["1", "2"], "spare": ["0", "1", "255", "0b11", "0o17", "1_0"],
    "transaction_id": PART_BITS, "part_number": PART_BITS, "part_size": ["1", "600", "65535", "6_5535"],
    "counter": BITS, "destination": BITS, "source": BITS, "epoch": ["1980-01-06", '"2000-02-29"'],
    "time": ["0", "7", "16", '"cuc 4 3"', "'cds 16 us p'", '"cuc 4 3 p"', '"""cuc 1 0"""', "'''\ncds 24'''",
             r'"\u0063uc 4 0"', r'"\x63uc 4 1"', '"""cds 2\\\n  4 ps"""'],
}
# What no key may be, or isn't TOML.
WRONG = [
    "True", "3", "-1", "-0", "00", "1__0", "_1", "1_", "0x_1", "0xG", "4.0", "4e0", "4E+1", "1.", "1.5e", ".5",
    "1e5_0", "inf", "-nan", "nul", "true1", "17", "65536", "9223372036854775807", "9223372036854775808",
    "-9223372036854775808", "0x7fffffffffffffff", "0x8000000000000000", '""', '"x"', '"cuc 5 3"', '"cuc 4 3 "',
    '"cds 24 ps q"', "1899-12-31", "2023-02-29", "2023-13-01", "1980-01-06T00:00:00Z", "1980-01-06 00:00",
    "00:00:00", "07:32", "24:00", "1979-05-27T07:32:00.5-07:00", "1979-05-27T07:32:00+24:00", "[1, 2]", "[1, 2,]",
    "[\n1, # c\n2\n]", "{}", "{ a = 1 }", "{a.b = 1, a.c = 2,}", "{a=1,a=2}", "{ a = 1\n, b = 2 }", "{ a\n= 1 }",
    r'"\q"', r'"\uD800"', '"a\nb"', '"""a\\\n  b"""', '""""a""""', "'''a''''", "'''a''''''", '"\t"', '"\x01"',
    "\x7f", "\u00e9", '"\u00e9"', "", "#", "1 2",
]
STRANGE = ["x", "Time", "a-b", "1", "\u00e9", '""', "a b", "tele.metry", ""]


class Texts:
    """A source of texts."""

    def __init__(self, seed: int):
        self.random = random.Random(seed)
        self.right = 1.0

    def pair(self, table: str, front: str = "") -> str:
        """A key of a table, with a value."""
        r = self.random
        key = r.choice(COMMON + KEYS[table])
        if self.right < 1 and r.random() < 0.05:
            key = r.choice([*VALUES, *STRANGE])
        value = r.choice(VALUES.get(key, ["1"]) if r.random() < self.right else WRONG)
        key = r.choice([key] * 9 + [f'"{key}"', f"'{key}'"])
        blank = r.choice([" ", "", "  ", "\t"])
        return f"{front}{key}{blank}={blank}{value}"

    def table(self, name: str) -> list[str]:
        """The lines of a table, in one of the ways to write it."""
        r = self.random
        way = r.random()
        if way < 0.55:
            heads = [f"[{name}]", f"[ {name} ]", f'["{name}"]', f"[{name}] # c", f"  [{name}]"]
            lines = [r.choice(heads), *(r.choice(["", "  "]) + self.pair(name) for _ in range(r.randrange(4)))]
            if self.right < 1 and r.random() < 0.15:
                lines.append(r.choice([f"[{name}.time]", f"[[{name}.epoch]]", f"[{name}.x]", f"[{name}]x"]))
            return lines
        if way < 0.75:
            return [self.pair(name, name + r.choice([".", ". ", " . "])) for _ in range(r.randrange(1, 4))]
        if way < 0.95 or self.right == 1:
            pairs = r.choice([", ", ",", ",\n"]).join(self.pair(name) for _ in range(r.randrange(4)))
            return [f"{name} = {{ {pairs}{r.choice([' }', '}', ' ,}'])}"]
        return [r.choice([f"{name} = 1", f"[[{name}]]", f"[{name}", name, f"[{name}.x]", f"[{name}s]"])]

    def text(self) -> bytes:
        """A text; a third of them are meant to be right."""
        r = self.random
        self.right = r.choice([0.6, 0.95, 1])
        lines = [r.choice(["", "# note", "#\u00e9", "# x\t", "#\x01", "\ufeff"])] if r.random() < 0.2 else []
        names = ["telemetry", "telecommands"]
        r.shuffle(names)
        if r.random() < 0.05:
            names.append(r.choice(names))
        for name in names:
            lines += self.table(name) if r.random() < 0.85 else []
        found = r.choice(["\n", "\n", "\n", "\r\n"]).join(lines)
        if found and r.random() < 0.1:
            at = r.randrange(len(found))
            found = found[:at] + r.choice('"=\n]\r#x\0 ') + found[at + r.randrange(2) :]
        octets = found.encode()
        if octets and r.random() < 0.02:
            at = r.randrange(len(octets))
            octets = octets[:at] + bytes([r.randrange(128, 256)]) + octets[at:]
        return octets

"""Random configurations, and a good one."""

import importlib.util

import model

HAS_TOML = importlib.util.find_spec("tomllib") is not None

GOOD_CONFIGURATION = b"""# All keys that there are.
apid = 100
source = 1
part_size = 8
timeout = 10
receptions = 8
outgoing = 8
clock = 4294967000
mode = "strict"

[[memory]]
id = 1
size = 256

[[memory]]
id = 2
size = 0x10
fill = 255
"""


def settings_by(chance):
    """A random configuration."""
    memory = [(1, chance.choice([16, 256, 256, 4096, 70000, 70000]), 0)]
    memory += [(n, chance.randrange(1, 40), chance.randrange(256)) for n in (2, 255)]
    return model.Settings(
        apid=chance.choice([100, 0, 2046]),
        source=chance.choice([1, 65535]),
        part_size=chance.choice([4, 5, 8, 8, 16, 24, 40, 64, 1024]),
        timeout=chance.choice([1, 4, 10]),
        receptions=chance.choice([1, 2, 8, 64]),
        outgoing=chance.choice([1, 2, 8, 64]),
        clock=chance.choice([0, 0, 77, model.LAST_TICK - 6]),
        mode=chance.choice(["any", "any", "strict"]),
        memory=tuple(memory[: chance.randrange(1, 4)]),
    )


def calm_settings_by(chance):
    """A random configuration under which the order of threads decides nothing."""
    settings = settings_by(chance)._replace(receptions=64, outgoing=64, mode="any")
    return settings._replace(part_size=chance.choice([4, 5, 8, 16]))


def written(settings):
    """A configuration as a file has it."""
    lines = [f"{key} = {getattr(settings, key)}\n" for key in model.RANGES]
    lines.append(f'mode = "{settings.mode}"\n')
    lines += [
        f"[[memory]]\nid = {name}\nsize = {size}\nfill = {fill}\n"
        for name, size, fill in settings.memory
    ]
    return "".join(lines).encode()

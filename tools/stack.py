"""Bounds of the libraries for C, from their machine code: the stack and the code of each call.

    stack.py [--write] FOLDER ..    the libraries of each folder, as tools/archive.py builds them; --write puts
                                    the bounds into bench/results/c-bounds.csv, each processor's in its place

A function's stack is the deepest of its instructions, by each way through them, and with that of the function
that it calls there. What walks down a tree of the kit calls itself, as often as such a tree is high at most. Another
function that does, an instruction that moves the stack's end by what isn't written in it, and a call of an
address have no bound here, and are told. The stack of memcpy and the like, and
of the three functions that give memory, isn't in it. The code of a call is that of all functions that it reaches.
llvm-objdump reads the archives.
"""

from __future__ import annotations

import csv
import pathlib
import re
import subprocess
import sys
from typing import Iterator, NamedTuple

TOP = pathlib.Path(__file__).resolve().parent.parent
KEPT = TOP / "bench/results/c-bounds.csv"
ARCHIVES = ["liblpt.a", "liblpt_end.a", "liblpt_ground.a"]
HEAD = ["Call", "Processor", "Stack", "Code", "Calls itself"]
# The functions that call themselves, once for each level of a tree, and one more than the kit's MAX_HEIGHT.
OF_TREES, LEVELS = "std_collections::btree::", 12
# How much a bound may grow before it is wrong: by another choice of the compiler's.
MOST = 1.05


class Instruction(NamedTuple):
    """An instruction: where it stands, what it is, and which function the linker puts into it."""

    at: int
    words: str
    symbol: str


class Effect(NamedTuple):
    """What an instruction does: where the stack's end and the frame's are then, by how much they are below the
    entry's; where it may go on beside the next one; whether it goes on there; and what it calls, a call that
    leaves so many octets."""

    depth: int
    frame: int
    target: int = -1
    goes_on: bool = True
    called: str = ""
    pushed: int = 0
    is_open: bool = False


def below_the_end(words: str, depth: int, frame: int) -> int:
    """How deep an instruction of x86-64 reads or writes: a function that calls none may use 128 octets below
    the stack's end. Where no frame was set, the frame's register holds something else."""
    named = re.findall(r"-(\d+)\(%(rbp|rsp)", words)
    deep = (int(by) + (frame if base == "rbp" else depth) for by, base in named if base == "rsp" or frame > 0)
    return max(deep, default=0)


class Unbounded(Exception):
    """Something has no bound that is seen here."""


LINE = re.compile(r"^ +([0-9a-f]+):\s*(.*?)(?:\s+(?:#|//) .*)?$")
RELOCATION = re.compile(r"^\s+[0-9a-f]+:\s+R_\w+_(PLT32|PC32|CALL26|JUMP26)\s+(?:\.text\.)?(.*?)(?:[-+]0x[0-9a-f]+)?$")
SYMBOL = re.compile(r"^[0-9a-f]+ .{7} \S*.*?\t([0-9a-f]+) (?:\.hidden )?(.*)$")
GOAL = re.compile(r"(?:^|,\s*|\s)0x([0-9a-f]+) <.*>$")


def functions(archive: pathlib.Path) -> tuple[dict[str, list[Instruction]], dict[str, int], str]:
    """The functions of an archive, how long each is, and the processor."""
    words = ["llvm-objdump", "-t", "-d", "-r", "--no-show-raw-insn", str(archive)]
    text = subprocess.run(words, capture_output=True, text=True, check=True).stdout
    processor = "aarch64" if "aarch64" in text.splitlines()[1] else "x86_64"
    table, _, code = text.partition("Disassembly of section")
    sizes = {it[2]: int(it[1], 16) for it in map(SYMBOL.match, table.splitlines()) if it}
    found: dict[str, list[Instruction]] = {}
    for line in code.splitlines():
        head, it, relocation = re.match(r"^[0-9a-f]+ <(.*)>:$", line), LINE.match(line), RELOCATION.match(line)
        if head:
            found[head[1]] = into = []
        elif relocation:
            into[-1] = into[-1]._replace(symbol=relocation[2])
        elif it:
            into.append(Instruction(int(it[1], 16), " ".join(it[2].split()), ""))
    return found, sizes, processor


def itself(it: Instruction) -> str:
    """The function that an instruction calls in which it stands; nothing if it calls no beginning of one."""
    goal = re.search(r"0x0 <(.*)>$", it.words)
    return goal[1] if goal else ""


def effect_x86_64(it: Instruction, depth: int, frame: int) -> Effect:
    """What an instruction of x86-64 does."""
    verb, _, rest = it.words.partition(" ")
    goal = GOAL.search(it.words)
    moved = re.match(r"^(add|sub)q \$(-?\d+), %rsp$", it.words)
    if moved:
        return Effect(depth + int(moved[2]) * (1 if moved[1] == "sub" else -1), frame)
    if verb in ("pushq", "popq"):
        return Effect(depth + (8 if verb == "pushq" else -8), frame)
    if it.words == "movq %rsp, %rbp":
        return Effect(depth, depth)
    if it.words == "movq %rbp, %rsp":
        return Effect(frame, frame)
    above = re.match(r"^leaq (-?\d+)\(%rsp\), %rsp$", it.words)
    if above:
        return Effect(depth - int(above[1]), frame)
    below = re.match(r"^leaq -(\d+)\(%rbp\), %rsp$", it.words)
    if below:
        return Effect(frame + int(below[1]), frame)
    if verb == "callq":
        return Effect(depth, frame, called=it.symbol or itself(it) or f"an address, {rest}", pushed=8)
    if verb == "jmp" and it.symbol:
        return Effect(depth, frame, goes_on=False, called=it.symbol)
    if verb.startswith("j"):
        return Effect(depth, frame, int(goal[1], 16) if goal else -1, verb not in ("jmp", "jmpq"), is_open=not goal)
    if re.search(r", %[re]?sp$", it.words) and not verb.startswith(("cmp", "test")):
        raise Unbounded(it.words)
    return Effect(depth, frame, goes_on=verb not in ("ret", "retq", "ud2"))


def effect_aarch64(it: Instruction, depth: int, frame: int) -> Effect:
    """What an instruction of aarch64 does."""
    verb, _, rest = it.words.partition(" ")
    goal = GOAL.search(it.words)
    moved = re.match(r"^(add|sub) sp, (sp|x29), #(\d+)(?:, lsl #(\d+))?$", it.words)
    if moved:
        by = int(moved[3]) << int(moved[4] or 0)
        return Effect((depth if moved[2] == "sp" else frame) + (by if moved[1] == "sub" else -by), frame)
    indexed = re.search(r"\[sp, #(-?\d+)\]!$", it.words) or re.search(r"\[sp\], #(-?\d+)$", it.words)
    if indexed:
        return Effect(depth - int(indexed[1]), frame)
    held = re.match(r"^(?:add x29, sp, #(\d+)|mov x29, sp)$", it.words)
    if held:
        return Effect(depth, depth - int(held[1] or 0))
    if it.words == "mov sp, x29":
        return Effect(frame, frame)
    if verb in ("bl", "blr"):
        return Effect(depth, frame, called=it.symbol or itself(it) or f"an address, {rest}")
    if verb == "b" and it.symbol:
        return Effect(depth, frame, goes_on=False, called=it.symbol)
    if verb == "br":
        return Effect(depth, frame, goes_on=False, is_open=True)
    if verb == "b" or verb.startswith(("b.", "cbz", "cbnz", "tbz", "tbnz")):
        return Effect(depth, frame, int(goal[1], 16) if goal else -1, verb != "b", is_open=not goal)
    if re.match(r"^\w+ sp,", it.words):
        raise Unbounded(it.words)
    return Effect(depth, frame, goes_on=verb not in ("ret", "brk", "udf"))


EFFECTS = {"x86_64": effect_x86_64, "aarch64": effect_aarch64}


class Body:
    """What is known of a function: its deepest instruction; what it calls, with how much is below it then; and
    why it has no bound, if it has none."""

    def __init__(self, instructions: list[Instruction], processor: str) -> None:
        self.deepest, self.calls, self.why = 0, set(), ""
        self.has_open = False
        self.places = {it.at: k for k, it in enumerate(instructions)}
        self.instructions, self.effect = instructions, EFFECTS[processor]
        self.reached: dict[int, tuple[int, int]] = {}
        self.open: tuple[int, int] = (0, 0)
        self.follow(0, (0, 0))
        while len(self.reached) < len(instructions) and self.has_open:
            self.follow(min(set(range(len(instructions))) - set(self.reached)), self.open)

    def follow(self, first: int, state: tuple[int, int]) -> None:
        """Goes through the instructions from one on: those of a table's jump are reached from nowhere else."""
        waiting = [(first, state)]
        while waiting:
            at, state = waiting.pop()
            if at in self.reached:
                if self.reached[at][0] != state[0]:
                    self.why = self.why or f"two depths at {self.instructions[at].at:x}"
                continue
            self.reached[at] = state
            try:
                it = self.effect(self.instructions[at], *state)
            except Unbounded as error:
                it, self.why = Effect(*state), str(error)
            lower = below_the_end(self.instructions[at].words, *state) if self.effect is effect_x86_64 else 0
            self.deepest = max(self.deepest, it.depth, lower)
            if it.called:
                self.calls.add((it.called, state[0] + it.pushed))
            if it.is_open:
                self.has_open, self.open = True, (it.depth, it.frame)
            if it.target in self.places:
                waiting.append((self.places[it.target], (it.depth, it.frame)))
            if it.goes_on and at + 1 < len(self.instructions):
                waiting.append((at + 1, (it.depth, it.frame)))


class Program:
    """An archive's functions: how deep each goes, and what it reaches."""

    def __init__(self, archive: pathlib.Path) -> None:
        self.functions, self.sizes, self.processor = functions(archive)
        self.bodies: dict[str, Body] = {}
        self.depths: dict[str, int] = {}
        self.cycles: dict[str, set[str]] = {}
        self.all_reached: dict[str, set[str]] = {}

    def body(self, name: str) -> Body:
        """What is known of a function."""
        if name not in self.bodies:
            self.bodies[name] = Body(self.functions[name], self.processor)
        return self.bodies[name]

    def depth(self, name: str, above: tuple[str, ...] = ()) -> int:
        """How far a function goes below where it begins."""
        if name not in self.functions:
            if name.startswith("an address"):
                raise Unbounded(f"{above[-1]} calls {name}")
            return 0
        if name not in self.depths:
            cycle = self.cycle(name)
            if not all(it.startswith(OF_TREES) for it in cycle):
                raise Unbounded(f"{name} calls itself")
            inner, deepest = 0, 0
            for it in cycle or {name}:
                if self.body(it).why:
                    raise Unbounded(f"{it}: {self.body(it).why}")
                calls = self.body(it).calls
                inner += max([depth for called, depth in calls if called in cycle], default=0)
                below = (depth + self.depth(to, (*above, name)) for to, depth in calls if to not in cycle)
                deepest = max([deepest, self.body(it).deepest, *below])
            self.depths[name] = LEVELS * inner + deepest
        return self.depths[name]

    def cycle(self, name: str) -> set[str]:
        """The functions that a function reaches and that reach it: none if it doesn't call itself."""
        if name not in self.cycles:
            below = set().union(*(self.reached(it) for it, _ in self.body(name).calls))
            self.cycles[name] = {it for it in below if name in below and name in self.reached(it)}
        return self.cycles[name]

    def reached(self, name: str) -> set[str]:
        """The functions of the archive that one reaches, itself too."""
        if name not in self.all_reached:
            found, waiting = set(), [name]
            while waiting:
                it = waiting.pop()
                if it in self.functions and it not in found:
                    found.add(it)
                    waiting += [called for called, _ in self.body(it).calls]
            self.all_reached[name] = found
        return self.all_reached[name]

    def bounds(self) -> Iterator[list[str]]:
        """A row for each export: the stack with the address to which the call returns, and the code."""
        for name in sorted(it for it in self.functions if re.fullmatch(r"lpt_\w+", it)):
            try:
                stack = str(self.depth(name) + (8 if self.processor == "x86_64" else 0))
            except Unbounded as error:
                stack = f"no bound: {error}"
            reached = self.reached(name)
            levels = LEVELS if any(self.cycle(it) for it in reached) else 0
            yield [name, self.processor, stack, str(sum(self.sizes[it] for it in reached)), str(levels)]


def bounds_in(folder: pathlib.Path) -> list[list[str]]:
    """The rows of the libraries of a folder."""
    return [row for it in ARCHIVES for row in Program(folder / it).bounds()]


def kept() -> dict[tuple[str, str], list[str]]:
    """The rows that are kept, by call and processor."""
    if not KEPT.is_file():
        return {}
    with open(KEPT, encoding="utf-8", newline="") as file:
        return {(row[0], row[1]): row for row in list(csv.reader(file))[2:]}


def risen(rows: list[list[str]]) -> list[str]:
    """What is wrong of these rows beside those that are kept."""
    before, wrong = kept(), []
    for call, processor, *numbers in rows:
        old = before.get((call, processor))
        if old is None:
            wrong.append(f"{call} for {processor} isn't in bench/results/c-bounds.csv: tools/stack.py --write")
            continue
        for what, number, most in zip(HEAD[2:], numbers, old[2:]):
            if number == most == "none":
                continue
            if not number.isdigit() or not most.isdigit() or int(number) > int(most) * MOST:
                wrong.append(f"{what.lower()} of {call} for {processor}: {number}, before {most}")
    return wrong


def main(words: list[str]) -> int:
    """Prints the bounds, or writes them."""
    rows = [row for it in words if it != "--write" for row in bounds_in(pathlib.Path(it))]
    if "--write" in words:
        here = {row[1] for row in rows}
        rows += [row for row in kept().values() if row[1] not in here]
        rows.sort(key=lambda it: (it[1] != "x86_64", it[0]))
        words = ["git", "-C", str(TOP), "rev-parse", "--short", "HEAD"]
        commit = subprocess.run(words, capture_output=True, text=True).stdout.strip()
        with open(KEPT, "w", encoding="utf-8", newline="") as file:
            file.write(f"# tools/stack.py --write at commit {commit}, of proved archives: octets\n")
            csv.writer(file, lineterminator="\n").writerows([HEAD, *rows])
    else:
        csv.writer(sys.stdout, lineterminator="\n").writerows([HEAD, *rows])
    return 0


if __name__ == "__main__":
    sys.exit(main(sys.argv[1:]))

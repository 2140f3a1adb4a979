"""What is said of edits: one that changes nothing is not refused, alone or beside one that breaks what it
calls or one of the same function, nor where a line says so, of this text or another, nor where it only takes
a name from a proof. One that can't be tried costs the others of its run nothing. What was refused is kept, and
nothing else, for just this text of the edit and of all below it. The edits are its own, of one small crate, whose
libraries are built in the room. (tests/edits runs this.)
"""

from __future__ import annotations

import pathlib
import tempfile
from dataclasses import dataclass
from typing import Iterable, Optional

from crates import libraries, rlib

from .crate import Crate
from .kept import Kept
from .mutant import Mutant
from .report import Report
from .trial import How, verdicts

CRATE = "lpt_packet"
REFUSED, LET_THROUGH = "refused, as it must be", "NOT REFUSED"
NOTHING = "SHOWS NOTHING"


@dataclass(frozen=True)
class Row:
    """An edit of a source, and how the reason of its verdict begins."""

    name: str
    source: str
    old: str
    new: str
    reason: str
    # Another line of its file, where MARK stands for the edit's own mark.
    line: str = ""


ROWS = [
    Row("same_number", "checksum", "crc16_more(0xffff, octets)", "crc16_more(65535, octets)", LET_THROUGH),
    Row("same_sum_in_a_copy", "checksum", "crc16_more(0xffff, octets)", "crc16_more(65534 + 1, octets)", LET_THROUGH),
    Row("turned_in_a_copy", "checksum", "crc16_more(0xffff, octets)", "crc16_more(0, octets)", REFUSED),
    Row("another_clause_named", "checksum", "crc16_more(0xffff, octets)", "crc16_more(1, octets)", NOTHING, "clause: reader"),
    Row("its_clause_named", "checksum", "let mut register = first;", "let mut register = 2;", REFUSED, "clause: loop-eight"),
    Row("its_type_broken", "packet", "apid > 2046", "apid > 2047", NOTHING),
    Row("its_type_named", "packet", "apid > 2046", "apid > 2048", REFUSED, "clause: invariant_of-result"),
    Row("callee_of_it_broken", "checksum", "(register % 256) as u8", "(register % 255) as u8", REFUSED),
    Row("same_bits", "reading", "second & 0x3fff", "second % 16384", LET_THROUGH, "goal: returns 00000000"),
    Row("said_to_be_open", "reading", "bytes[at + 1]]", "bytes[1 + at]]", LET_THROUGH, "goal: returns MARK"),
    Row(
        "method_of_a_trait",
        "octets",
        "self.items.as_slice() == other.items.as_slice()",
        "self.items.len() == other.items.len()",
        REFUSED,
    ),
    Row("unknown_name", "octets", "Octets { items }", "Octets { items: nought }", "BAD EDIT: error[unknown-name]"),
    Row(
        "promise_turned",
        "checksum",
        "ensures { result ≡ checksum octets.now }",
        "ensures { result ≡ checksum [] }",
        "BAD EDIT: it changes what checksum::crc16 promises",
    ),
    Row(
        "no_function",
        "sizes",
        "ERROR_CONTROL: usize = 2",
        "ERROR_CONTROL: usize = 3",
        "BAD EDIT: it turns no function",
    ),
]

# The clauses of a function; and of an edit of it that names this clause, if any, goals that are open, and which of
# them shows its fault.
CLAUSES = """    ensures ok { OnOk result (self.new ≡ closed self.old name) }
    ensures refused { IfErr result (RefusedBy (refusal_close self.old name)) }
    ensures back { OnErr result (self.new ≡ self.old) }
"""
SHOWN: list[tuple[str, list[str], Optional[str]]] = [
    ("", ["reset-requires", "returns-clause-ok"], "returns-clause-ok"),
    ("", ["reset-requires-clause-ok", "overflow_add-result", "slice_bounds-2", "unreachable-requires"], None),
    ("", ["returns-in_err-state-clause-ok", "returns-in-Err-clause-ok"], None),
    ("", ["returns-then-gt-in-Err-2-clause-ok", "returns-in-Ok-clause-ok"], "returns-in-Ok-clause-ok"),
    ("", ["returns-then-gt-clause-refused", "returns-clause-back"], None),
    ("", ["invariant_of-self-2", "loop-k-preserved"], "loop-k-preserved"),
    ("invariant_of", ["loop-k-preserved", "invariant_of-self-2"], "invariant_of-self-2"),
    ("refused", ["returns-clause-ok", "returns-then-gt-clause-refused"], "returns-then-gt-clause-refused"),
    ("refused", ["returns-clause-ok", "returns-then-gt-clause-back"], None),
    ("reset-requires", ["returns-clause-ok", "reset-requires"], "reset-requires"),
]

# None of this, told of the function a::b::f in the lines 1 to 9 of its file, is a refusal of it.
TOLD = [
    "fn a::b::f: not proved; it stands on `Rattle.a.proofs.b.g.Answers.returns`, which antt refuses",
    "fn a::b::f: no proof: the borrow checker does not cover this function yet",
    "fn a::b::f: no proof: a call of `g`, which has no proof",
    "fn a::b::f: could not tell",
    "note: src/b.rt:12:1: it is not proved that it holds (`returns`)\nfn a::b::f: not proved",
    "./proofs/b/f/Answers.antt:1:9: error: `returns-then-gt`: it has no `returns-then-gt`\n"
    "note: src/b.rt:3:1: it is not proved that it holds (`returns-then-ge`)\nfn a::b::f: not proved",
]

ASIDE = (
    "./proofs/b/f/Answers.antt:1:9: error: `returns-then-gt`: no proof\n"
    "note: src/b.rt:3:1: it is not proved that it holds (`reset-requires`)\nfn a::b::f: not proved"
)


class Told:
    """A mutant of the function a::b::f, of which one answer is written."""

    functions: set[str] = {"a::b::f"}
    clause: Optional[str] = None
    noted: Optional[str] = None
    copy = ""

    def tried(self) -> set[str]:
        """Its functions."""
        return self.functions

    def answers(self, name: str) -> str:
        """The answers of its function."""
        del name
        return "pub returns-then-gt : goal.returns-then-gt"

    def goal_aside(self, name: str) -> Optional[str]:
        """No answer is put aside."""
        del name

    def shown(self, goals: list[str]) -> Optional[str]:
        """The first goal is taken."""
        return goals[0] if goals else None

    def put_aside(self, goals: Iterable[tuple[str, str]]) -> bool:
        """Nor can one be."""
        del goals
        return False


class Naming(Told):
    """One that names a clause, whose answer can be put aside."""

    clause = "returns"
    shown = Mutant.shown

    def put_aside(self, goals: Iterable[tuple[str, str]]) -> bool:
        """The first goal's is."""
        return bool(list(goals))


class Clauses:
    """A crate whose functions have these clauses."""

    def function(self, name: str) -> str:
        """The text of a function."""
        del name
        return CLAUSES


def shown(clause: str, goals: list[str]) -> Optional[str]:
    """Which of these open goals shows the fault of an edit that names this clause."""
    return Mutant(Clauses(), pathlib.Path(), [], {"a::b::f"}, False, True, clause).shown(goals)


def write(crate: Crate, row: Row, folder: pathlib.Path) -> None:
    """Writes an edit's file."""
    file = folder / f"{row.name}.edit"
    text = f"file: src/{row.source}.rt\nold: {row.old}\nnew: {row.new}\n{row.line}\n"
    file.write_text(text, encoding="utf-8")
    if "MARK" in text:
        file.write_text(text.replace("MARK", Mutant.of(crate, file).mark()), encoding="utf-8")


def wrongly_kept(crate: Crate, folder: pathlib.Path, store: pathlib.Path) -> list[str]:
    """What is kept of the edits of a folder after they were tried, and shouldn't be, and the other way round."""
    kept, other = Kept(crate, store), Kept(Crate(crate.room, CRATE, {CRATE: ["hex"]}), store)
    wrong = []
    for row in ROWS:
        said = f"{row.name}.edit", (folder / f"{row.name}.edit").read_text(encoding="utf-8")
        if bool(kept.reason(said)) != (row.reason == REFUSED) or other.reason(said):
            wrong.append(row.name)
    one = folder.with_name("one")
    one.mkdir()
    edit = one / f"{ROWS[2].name}.edit"
    said = edit.name, (folder / edit.name).read_text(encoding="utf-8")
    edit.write_text(said[1], encoding="utf-8")
    kept.entry(said).write_text("{}", encoding="utf-8")
    if kept.reason(said):
        wrong.append("a damaged entry")
    kept.keep(said, "as is kept")
    if [it.reason for _, it in verdicts(crate, one, store=store)] != ["as is kept"]:
        wrong.append("what is kept isn't taken")
    edit.write_text(f"{said[1]}goal: stale 00000000\n", encoding="utf-8")
    verdicts(crate, one, How.NOTE, store)
    if not Mutant.of(crate, edit).noted:
        wrong.append("a line that doesn't fit stands")
    mutant = Mutant.of(crate, edit)
    edit.write_text("", encoding="utf-8")
    mutant.note()
    if not mutant.text[1] or edit.read_text(encoding="utf-8"):
        wrong.append("what was changed since it was read")
    return wrong


def main(room: pathlib.Path) -> int:
    """Tries the edits, and takes what is told."""
    failed = 0
    crate = Crate(room, CRATE, libraries(room))
    if not rlib(room, CRATE).is_dir():
        print(f"edits: no library of {CRATE} is built here (rt lib)\nedits: 0 passed, 1 failed")
        return 1
    with tempfile.TemporaryDirectory() as name:
        folder, store = pathlib.Path(name, "edits"), pathlib.Path(name, "store")
        folder.mkdir()
        store.mkdir()
        for row in ROWS:
            write(crate, row, folder)
        said = dict(verdicts(crate, folder, store=store))
        wrong = wrongly_kept(crate, folder, store)
    for row in ROWS:
        verdict = said[f"{CRATE}/{row.name}.edit"]
        if not verdict.reason.startswith(row.reason) or verdict.is_refused != (row.reason == REFUSED):
            failed += 1
            print(f"edits: {row.name}: not '{row.reason}', but: {verdict.reason}")
    if wrong:
        failed += 1
        print(f"edits: not kept as they must be: {', '.join(wrong)}")
    for told in TOLD:
        report = Report(told.split("\n"), {"a::b::f": ("src/b.rt", range(1, 10))})
        if report.verdict(Told(), False).is_refused:
            failed += 1
            print(f"edits: taken for a refusal: {told}")
    # A named clause's answer doesn't fit any more, and beside it a condition is open.
    report = Report(ASIDE.split("\n"), {"a::b::f": ("src/b.rt", range(1, 10))})
    if report.verdict(Naming(), False):
        failed += 1
        print("edits: the answer of a named clause isn't put aside")
    for clause, goals, wanted in SHOWN:
        if shown(clause, goals) != wanted:
            failed += 1
            print(f"edits: of {goals} not {wanted} shows the fault, but {shown(clause, goals)}")
    print(f"edits: {len(ROWS) + len(TOLD) + 2 + len(SHOWN) - failed} passed, {failed} failed")
    return 1 if failed else 0

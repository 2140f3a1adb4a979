"""Tries the must-fail edits: the prover must refuse each, in the function that it mutates.

An edit is a file of crates/NAME/must-fail/, as the kit has them: lines 'file: PATH', 'old: TEXT' (which
stands once in that file) and 'new: TEXT', and further such pairs. What it makes of the sources is a mutant.
`rt must-fail NAME` tries them too, one after another over a second proof of the crate.

Here a crate's mutants are tried at once. A function is proved by itself, over the contracts of those that it
calls and never over their bodies. So the prover is given the mutants of all functions in one text, is asked
for these functions alone, and says of each which goals are open. Of several mutants of one function all but
the first are copies of it (copies.py). Every other function is taken by its contract (prover.py): its body is
an endless loop, and its proof a hole. That all are proved as they stand, `rt ci` has said, with the same
prover over the same libraries.

A mutant is refused where a goal of the very function that it mutates is open, though the prover tried all its
tactics (report.py). An answer in a file that doesn't fit any more is no refusal: it is put aside (answers.py),
and a further run has the prover try the goal without it. Nor is it one that an answer names what isn't there
any more, or that the prover doesn't come to the function: the cause may lie in another mutant of the run, so
it is tried again alone. What stays undecided, fails.

A false goal is searched for long. So --anew writes down in an edit which goal was open, in a line
'goal: NAME MARK', and itself goes by no such line. Where the mark is still that of the edit, of the mutated
function and its proof, and of all that the crate defines and promises, this goal alone is tried: by the answer
that is written of it, or by two tactics with few steps. Where it isn't open so, or the mark is another, the
edit is tried as one without a line.

What is open must show the fault. A condition of what is called, a sum out of range, a place that isn't
reached, a way on which an error is handed on, a clause of errors alone, or what always holds of a type does so
only where the edit says that this is meant, by a line 'clause: NAME', which the name of a goal has in it; where
only such goals are open, the edit shows nothing, and fails. The same line names a clause where another one
would be open first: an answer of that clause that doesn't fit is put aside too.

An edit of what stands in no function, a constant say, names the function to be refused by a line
'refused: NAME', and is tried alone.
"""

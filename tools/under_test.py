"""The program that the scripts of tests/ try: the one that was proved and built, or the one that LPT_UNDER_TEST
names. Each script says which."""

import os
import pathlib

BUILT = pathlib.Path(__file__).resolve().parent.parent / "crates/lpt/out/lpt"
PROGRAM = pathlib.Path(os.environ.get("LPT_UNDER_TEST") or BUILT).absolute()

print(f"the program under test is {PROGRAM}", flush=True)

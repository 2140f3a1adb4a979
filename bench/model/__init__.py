"""A model of the program: the rules of docs/SCRIPT.md and docs/FORMATS.md, stated a second time.

It shares nothing with the program. `run` says what a script prints and the status it ends with,
`decode` the same of octets, `complaint` what standard error says of them, and `settings_of` what a
configuration means. In it memory never runs out. It knows no script of more than 16,777,216 octets, and no file
that can't be read.
"""

from .craft import serve
from .decoding import complaint, decode
from .memories import load_body
from .packets import Name, checksum, hexadecimal, write_command
from .parts import part_count
from .scripts import Session, run
from .settings import LAST_TICK, RANGES, Settings, settings_of
from .threads import run_threads

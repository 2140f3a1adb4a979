"""Makes the package's wheel, as pip asks for it, with the libraries of ../build and the program in it: proved ones, or
otherwise those that were compiled without a proof, as the wheel's version says then.

It needs nothing but Python, so `pip install` of this folder needs no network either.
"""

from __future__ import annotations

import base64
import contextlib
import hashlib
import os
import pathlib
import re
import subprocess
import sys
import sysconfig
import zipfile

HERE = pathlib.Path(__file__).resolve().parent
TOP = HERE.parent
LIBRARIES = ["liblpt.so.0", "liblpt_end.so.0", "liblpt_ground.so.0"]
PROGRAM, TRIED = TOP / "crates/lpt/out/lpt", TOP / "crates/lpt/out/tried/lpt"
# The program without a proof has checks in it, which ./lpt tells not to look for leaks.
STARTER = """#!/bin/sh
ASAN_OPTIONS=abort_on_error=0:exitcode=4:detect_leaks=0:allocator_may_return_null=1
export ASAN_OPTIONS
exec "$(dirname "$0")/lpt-unproved" "$@"
"""


def _project() -> dict[str, str]:
    """The words of the project's table that are texts."""
    text = (HERE / "pyproject.toml").read_text(encoding="utf-8")
    table = text.split("[project]", 1)[1].split("\n[", 1)[0]
    return dict(re.findall(r'^([\w-]+) = "(.*)"$', table, re.M))


def _metadata(project: dict[str, str]) -> str:
    """What an index or `pip show` says of the package."""
    heads = [
        "Metadata-Version: 2.1", f"Name: {project['name']}", f"Version: {project['version']}",
        f"Summary: {project['description']}", "Author: Forgesilver", "License: none is given yet",
        "Platform: linux", "Classifier: Operating System :: POSIX :: Linux", "Classifier: Typing :: Typed",
        "Classifier: Topic :: Scientific/Engineering", f"Requires-Python: {project['requires-python']}",
        "Description-Content-Type: text/markdown", "Provides-Extra: plot",
        "Requires-Dist: matplotlib>=3.6; extra == 'plot'",
    ]
    return "\n".join([*heads, "", (HERE / "README.md").read_text(encoding="utf-8")])


def _is_well(*words: object, **ways: str) -> bool:
    """Whether a command ends well."""
    ran = subprocess.run([str(it) for it in words], env={**os.environ, **ways}, stdout=subprocess.DEVNULL, check=False)
    return ran.returncode == 0


def _libraries() -> tuple[dict[str, bytes], bool]:
    """The libraries by their names, and whether they are proved, of the sources as they are now."""
    is_proved = _is_well(sys.executable, TOP / "tools/archive.py", "is_built", TOP)
    files = [TOP / "build" / ("" if is_proved else "unproved") / it for it in LIBRARIES]
    return {it.name: it.read_bytes() for it in files if it.is_file()}, is_proved


def _program() -> tuple[dict[str, bytes], bool]:
    """The program by its name, and whether it is proved, of the sources as they are now."""
    if PROGRAM.is_file() and _is_well(TOP / "lpt", "--version", LPT_BUILD="never"):
        return {"lpt": PROGRAM.read_bytes()}, True
    if not TRIED.is_file():
        return {}, False
    return {"lpt": STARTER.encode(), "lpt-unproved": TRIED.read_bytes()}, False


def _built() -> tuple[dict[str, bytes], str]:
    """What is run, by its name, and what the version ends in."""
    (libraries, are_proved), (program, is_proved) = _libraries(), _program()
    if not libraries and not program:
        sys.exit(f"forgesilver: neither libraries nor a program are built: run ./build-c, ./build-c --unproved or ./lpt in {TOP} first")
    for name, found in (("./build-c", libraries), ("./lpt", program)):
        if not found:
            print(f"forgesilver: the wheel is without what {name} builds", file=sys.stderr)
    is_all_proved = are_proved >= bool(libraries) and is_proved >= bool(program)
    return {**libraries, **program}, "" if is_all_proved else "+unproved"


def _row(name: str, octets: bytes) -> str:
    """The line of a file in the wheel's list."""
    digest = base64.urlsafe_b64encode(hashlib.sha256(octets).digest()).rstrip(b"=").decode()
    return f"{name},sha256={digest},{len(octets)}\n"


def _add(wheel: zipfile.ZipFile, name: str, octets: bytes, mode: int = 0o644) -> None:
    """Adds a file, of the same date each time."""
    entry = zipfile.ZipInfo(name, (2026, 1, 1, 0, 0, 0))
    entry.compress_type, entry.external_attr = zipfile.ZIP_DEFLATED, (0o100000 | mode) << 16
    wheel.writestr(entry, octets)


def build_wheel(wheel_directory: str, config_settings: object = None, metadata_directory: object = None) -> str:
    """Writes the wheel into this folder, and gives its name."""
    project, platform = _project(), re.sub(r"[-.]", "_", sysconfig.get_platform())
    built, mark = _built()
    project["version"] += mark
    name, tag = f"{project['name']}-{project['version']}", f"py3-none-{platform}"
    files = {f"forgesilver/{it}": (octets, 0o755) for it, octets in built.items()}
    files.update({f"{it.relative_to(HERE)}": (it.read_bytes(), 0o644) for it in (HERE / "forgesilver").rglob("*")
                  if it.suffix in (".py", ".typed")})
    listed = ""
    with zipfile.ZipFile(pathlib.Path(wheel_directory, f"{name}-{tag}.whl"), "w") as wheel:
        for place, (octets, mode) in sorted(files.items()):
            _add(wheel, place, octets, mode)
            listed += _row(place, octets)
        told = f"Wheel-Version: 1.0\nGenerator: forgesilver\nRoot-Is-Purelib: false\nTag: {tag}\n"
        for place, text in (("METADATA", _metadata(project)), ("WHEEL", told)):
            place = f"{name}.dist-info/{place}"
            _add(wheel, place, text.encode())
            listed += _row(place, text.encode())
        listed += f"{name}.dist-info/RECORD,,\n"
        _add(wheel, f"{name}.dist-info/RECORD", listed.encode())
    _forget()
    return f"{name}-{tag}.whl"


def _forget() -> None:
    """Takes away what Python keeps of this file: nothing is left in the repository."""
    if "__cached__" in globals():
        kept = pathlib.Path(__cached__)  # noqa: F821: Python sets it
        with contextlib.suppress(OSError):
            kept.unlink()
            kept.parent.rmdir()

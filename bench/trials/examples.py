"""The scripts of examples/, by which the model itself is tried."""

import pathlib
import sys

import model

from .configurations import HAS_TOML

TOP = pathlib.Path(__file__).resolve().parent.parent.parent
# What the model says of the program's commands.
RULES = {"run": model.run, "threads": model.run_threads}


def examples():
    """The scripts of examples/."""
    return sorted((TOP / "examples").glob("*.script"))


def has_threads(path):
    """Whether a script of examples/ is one for threads."""
    return path.stem == "threads"


def settings_beside(path):
    """The configuration that stands beside a script of examples/, where one does."""
    beside = path.with_suffix(".toml")
    return model.settings_of(beside.read_bytes()) if beside.exists() else model.Settings()


def check_model():
    """The model itself prints what each script of examples/ is to print."""
    for path in examples():
        if path.with_suffix(".toml").exists() and not HAS_TOML:
            continue
        told = path.with_suffix(".status")
        status = int(told.read_text()) if told.exists() else 0
        wanted = path.with_suffix(".stdout").read_text(), status
        command = RULES["threads" if has_threads(path) else "run"]
        if command(path.read_bytes(), settings_beside(path)) != wanted:
            sys.exit(f"hostile: the model is wrong about {path}")

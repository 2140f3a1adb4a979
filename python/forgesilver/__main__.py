"""python3 -m forgesilver: pictures, tables, and a shell and a lint for the simulator, over the program lpt."""

from __future__ import annotations

import argparse
import os
import sys
from typing import Union

from .program import ProgramError

# The options of lpt that the commands pass on.
_OPTIONS = {"config": "FILE", "apid": "N", "source": "N", "part-size": "N", "mode": "MODE", "layout": "FILE"}


def _commands() -> argparse.ArgumentParser:
    """The command line."""
    own = argparse.ArgumentParser(add_help=False)
    passed = own.add_argument_group("options of lpt")
    for name, word in _OPTIONS.items():
        passed.add_argument(f"--{name}", metavar=word)
    top = argparse.ArgumentParser(prog="python3 -m forgesilver", description=(__doc__ or "").split(": ", 1)[1])
    commands = top.add_subparsers(dest="command", required=True)
    chart = commands.add_parser("chart", parents=[own], help="draw a script's run, packets, or a contact")
    what = chart.add_mutually_exclusive_group(required=True)
    what.add_argument("script", nargs="?", help="a script of the simulator, or - for standard input")
    what.add_argument("--stream", metavar="FILE", help="a file of packets")
    what.add_argument("--contact", metavar="FILE", help="what lpt pass --json or lpt ground --json said")
    chart.add_argument("-o", "--output", default="chart.svg", help=".svg, .png or .pdf (default: %(default)s)")
    chart.add_argument("--title", default="")
    chart.add_argument("--theme", choices=["light", "dark"], default="light",
                       help="an SVG of the light one is dark in a viewer with a dark one")
    chart.add_argument("--refused", action="store_true", help="of a script: also draw the lines that were refused")
    chart.add_argument("--compact", action=argparse.BooleanOptionalAction, help="of a script: rows as thin as lines")
    chart.add_argument("--from", dest="first", metavar="N", type=int, default=0, help="of a script: the first event")
    chart.add_argument("--to", dest="last", metavar="N", type=int, help="of a script: the last event")
    shell = commands.add_parser("shell", parents=[own], help="answer the lines of a script as they are typed")
    shell.add_argument("script", nargs="?", help="first answer the lines of this script")
    lint = commands.add_parser("lint", help="say which lines of scripts can't be read, and why, without a run")
    lint.add_argument("scripts", nargs="+", metavar="SCRIPT", help="a script of the simulator, or - for standard input")
    table = commands.add_parser("list", parents=[own], help="list packets as a table")
    table.add_argument("files", nargs="+", metavar="FILE")
    return top


def _chart(asked: argparse.Namespace, options: list[str]) -> int:
    """Writes a picture."""
    try:
        from . import plot
    except ModuleNotFoundError as error:
        raise ValueError(f"pictures need matplotlib: {error}") from error
    look = {"title": asked.title, "theme": asked.theme}
    script: Union[str, bytes] = asked.script
    if asked.stream:
        figure = plot.stream(asked.stream, *options, **look)
    elif asked.contact:
        figure = plot.contact(asked.contact, **look)
    else:
        script = sys.stdin.buffer.read() if asked.script == "-" else asked.script
        figure = plot.run(script, *options, refused=asked.refused, compact=asked.compact, first=asked.first,
                          last=asked.last, **look)
    plot.save(figure, asked.output)
    return 0


def main() -> int:
    """Does what the command line asks for. The status is 2 or 3 if that can't be done, as of lpt."""
    asked = _commands().parse_args()
    given = {f"--{name}": getattr(asked, name.replace("-", "_"), None) for name in _OPTIONS}
    options = [it for name, value in given.items() if value is not None for it in (name, value)]
    try:
        if asked.command == "chart":
            return _chart(asked, options)
        if asked.command == "shell":
            from .shell import main as shell

            return shell(asked.script, *options)
        if asked.command == "lint":
            from .lint import main as lint

            return lint(asked.scripts)
        from .table import main as table

        return table(asked.files, *options)
    except ProgramError as error:
        print(error, file=sys.stderr)
        return error.status if error.status in (2, 3) else 3
    except ValueError as error:
        print(f"forgesilver: {error}", file=sys.stderr)
        return 2
    except OSError as error:
        # Where nobody reads what is printed any more, nothing is said.
        if not isinstance(error, BrokenPipeError):
            print(f"forgesilver: {error}", file=sys.stderr)
        # What couldn't be written isn't tried again.
        os.dup2(os.open(os.devnull, os.O_WRONLY), sys.stdout.fileno())
        return 3


if __name__ == "__main__":
    sys.exit(main())

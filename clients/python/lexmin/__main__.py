"""The commands of the package: `python -m lexmin COMMAND ..`, or `lexmin COMMAND ..` where it is installed."""
from __future__ import annotations

import io
import os
import signal
import sys
from typing import Optional, Sequence

from . import __version__, asking, drawing, explain, sources
from .processes import when_begun

# Of each command its module, whose `main` takes the words behind the command and gives the status.
COMMANDS = {"draw": drawing.main, "explain": explain.main, "isl": asking.isl, "shorten": asking.shorten, "source": sources.main}
USAGE = """usage: lexmin draw [--parameters NAMES] [--unknowns NAMES] [--mermaid] [--merge] [--across] [FILE]
       lexmin explain [--polylib] [--parameters NAMES] [--unknowns NAMES] [FILE]
       lexmin isl [--program FILE] [--timeout SECONDS] [--greatest] [--context CONSTRAINTS] [--low NAME=NUMBER] [--shorten] SET
       lexmin shorten [--program FILE] [--timeout SECONDS] [--questions N] [--seconds S] [FILE]
       lexmin source [--c] [--name NAME] [--parameters NAMES] [--unknowns NAMES] [FILE]
       lexmin COMMAND --help"""


def main(words: Optional[Sequence[str]] = None) -> int:
    if words is None:
        words = sys.argv[1:]
        signal.signal(signal.SIGTERM, _left)
    if sys.stdin is None:  # closed: there is nothing to read
        sys.stdin = open(os.devnull)
    if sys.stdout is None:
        print("lexmin: standard output is closed", file=sys.stderr)
        return 1
    if isinstance(sys.stdout, io.TextIOWrapper):
        sys.stdout.reconfigure(write_through=False)  # what can't be written of a help argparse would not say
    try:
        try:
            status = command(words)
        except SystemExit as end:  # of the words, which argparse reads, and of `_left`
            status = end.code if isinstance(end.code, int) else 0
        sys.stdout.flush()
        return status
    except KeyboardInterrupt:  # as a shell says of what Ctrl-C ended
        return 128 + signal.SIGINT
    except OSError as error:  # of what is written
        if not isinstance(error, BrokenPipeError):  # (there who reads has read enough)
            print(f"lexmin: {error}", file=sys.stderr)
        os.dup2(os.open(os.devnull, os.O_WRONLY), sys.stdout.fileno())
        return 1


def _left(number: int, _: object) -> None:
    """Ends the program too, where it is under way."""
    when_begun(lambda: sys.exit(128 + number))


def command(words: Sequence[str]) -> int:
    if words[:1] == ["--version"]:
        print(__version__)
    elif words[:1] in (["--help"], ["-h"]):
        print(USAGE)
    elif words and words[0] in COMMANDS:
        return COMMANDS[words[0]](words[1:])
    else:
        print(USAGE, file=sys.stderr)
        return 2
    return 0


if __name__ == "__main__":
    sys.exit(main())

"""What the scripts share: their words, their input, and one sentence with status 2 in place of a traceback."""
from __future__ import annotations

import argparse
import os
import pathlib
import shlex
import subprocess
import sys
from typing import Callable, List, NoReturn, Optional

from .reasons import report
from .scale import Fault

TOP = pathlib.Path(__file__).resolve().parent.parent.parent


class Words(argparse.ArgumentParser):
    """Reads the words of a script; wrong ones are refused in one sentence, as all input is."""

    def error(self, message: str) -> NoReturn:
        raise Fault(f'{message}; --help tells how it is used')


def parser(description: Optional[str]) -> Words:
    """A parser of words that shows the description as it stands and takes no shortened options."""
    return Words(description=description, formatter_class=argparse.RawDescriptionHelpFormatter, allow_abbrev=False)


def whole(least: int, most: int) -> Callable[[str], int]:
    """A whole number within a range, as a word."""
    def number(word: str) -> int:
        if not (word.isascii() and word.isdigit() and len(word) <= 20 and least <= int(word) <= most):
            raise argparse.ArgumentTypeError(f'there stands {word}, and a number from {least} to {most} was expected')
        return int(word)
    return number


def bytes_in() -> bytes:
    """All of standard input."""
    if sys.stdin is None:
        raise Fault('standard input is closed')
    return sys.stdin.buffer.read()


def text_in() -> str:
    """All of standard input, a text."""
    return text_of(bytes_in())


def text_of(data: bytes) -> str:
    """Bytes that are UTF-8, as a text."""
    try:
        return data.decode()
    except UnicodeDecodeError as error:
        number = data[:error.start].count(b'\n') + 1
        raise Fault(f'line {number}: there stands a byte {data[error.start]:02x}, and UTF-8 was expected') from None


def bytes_out(data: bytes) -> None:
    """Writes to standard output."""
    sys.stdout.buffer.write(data)
    sys.stdout.buffer.flush()


def command_of(text: str) -> List[str]:
    """The words of a command, as the shell reads them."""
    try:
        return shlex.split(text)
    except ValueError as error:
        raise Fault(f'there stands {text}, and a command was expected: {error}') from None


def program() -> List[str]:
    """The command of the program: NPOS_PROGRAM, or the wrapper at the top."""
    return command_of(os.environ.get('NPOS_PROGRAM', '')) or [str(TOP / 'npos')]


def replayed(stream: bytes, verb: str = 'replay') -> List[str]:
    """The lines that `npos replay` writes of a stream, or `npos resume` of a state with blocks."""
    done = subprocess.run(program() + [verb], input=stream, stdout=subprocess.PIPE)
    if done.returncode not in (0, 3):
        raise Fault(f'npos {verb} ended with status {done.returncode}, and 0 or 3 was expected')
    return report(text_of(done.stdout))


def run(main: Callable[[], int]) -> None:
    """Runs a script and ends with its status; what it cannot use is told in one sentence, with status 2."""
    name = pathlib.Path(sys.argv[0]).name
    try:
        if sys.stdout is None:
            raise Fault('standard output is closed')
        status = main()
        sys.stdout.flush()
        sys.exit(status)
    except (Fault, argparse.ArgumentTypeError) as fault:
        sentence = str(fault)
    except BrokenPipeError:
        # nobody reads on, so nothing is to be said either
        os.dup2(os.open(os.devnull, os.O_WRONLY), sys.stdout.fileno())
        sys.exit(141)
    except OSError as error:
        sentence = f'{error.filename or "standard input or output"}: {error.strerror}'
    except KeyboardInterrupt:
        sys.exit(130)
    if sys.stderr:
        print(f'{name}: {sentence}', file=sys.stderr)
    sys.exit(2)

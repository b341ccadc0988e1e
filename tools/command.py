"""What the scripts share at the command line: their words, their input, their output, and how they refuse."""
from __future__ import annotations

import argparse
import os
import sys
from typing import Callable, NoReturn, Optional, Tuple, Union

from scale import BadInput

REFUSED = 2


class Words(argparse.ArgumentParser):
    """Reads the words of a script; wrong ones are refused in one sentence."""

    def __init__(self, about: Optional[str]):
        super().__init__(description=about, allow_abbrev=False, formatter_class=argparse.RawDescriptionHelpFormatter)

    def error(self, message: str) -> NoReturn:
        """Ends the script, as on any bad input."""
        refuse(self.prog, f'{message}; --help tells how it is used')


def whole_within(least: int, most: int) -> Callable[[str], int]:
    """What reads a word as a whole number within bounds."""
    def number(word: str) -> int:
        if not (word.isascii() and word.isdigit() and len(word) <= 20 and least <= int(word) <= most):
            raise argparse.ArgumentTypeError(f'{word!r} is no whole number from {least:,} to {most:,}')
        return int(word)
    return number


def checked(read: Callable[[str], int]) -> Callable[[str], int]:
    """What reads a word with a function that says in a ValueError what it wants."""
    def value(word: str) -> int:
        try:
            return read(word)
        except ValueError as error:
            raise argparse.ArgumentTypeError(f'{word!r} does not fit: {error}') from None
    return value


def say(name: str, sentence: str) -> None:
    """Says one sentence on standard error, where that is open."""
    if sys.stderr:
        print(f'{name}: {" ".join(sentence.split())}', file=sys.stderr)


def refuse(name: str, sentence: str) -> NoReturn:
    """Says one sentence and ends with the status of bad input."""
    say(name, sentence)
    sys.exit(REFUSED)


def standard_input(what: str) -> bytes:
    """All of standard input, unless somebody sits before it who does not know that it is waited for."""
    if sys.stdin is None or sys.stdin.isatty():
        raise BadInput(f'{what} is due on standard input; --help tells how it is used')
    return sys.stdin.buffer.read()


def file_bytes(path: str) -> bytes:
    """All of a file."""
    try:
        with open(path, 'rb') as source:
            return source.read()
    except ValueError as fault:
        raise BadInput(f'{path!r} names no file: {fault}') from None


def printable(word: str) -> str:
    """A text of the command line without what cannot be shown."""
    return ''.join(letter for letter in word if letter.isprintable())


def write_all(data: bytes) -> None:
    """Writes to standard output, past Python's own buffer, so that a failure is met here and not when the script ends."""
    if sys.stdout is None:
        raise BadInput('standard output is closed')
    rest, place = memoryview(data), sys.stdout.fileno()
    while rest:
        rest = rest[os.write(place, rest):]


def run(name: str, work: Callable[[], Union[bytes, Tuple[bytes, int]]]) -> None:
    """Writes what the work gives, whole or not at all, and refuses in one sentence what cannot be done.

    Where the work gives a status besides, the script ends with it.
    """
    try:
        done = work()
        data, status = done if isinstance(done, tuple) else (done, 0)
        write_all(data)
        if status:
            sys.exit(status)
    except BadInput as fault:
        refuse(name, str(fault))
    except OSError as fault:
        refuse(name, f'{fault.filename or "standard output"}: {fault.strerror or fault}')
    except KeyboardInterrupt:
        sys.exit(130)

"""Finds and runs the proved program, and reads the lines that it writes."""
from __future__ import annotations

import hashlib
import os
import re
import shlex
import shutil
import subprocess
import time
from dataclasses import dataclass, field
from functools import lru_cache
from pathlib import Path
from typing import List, NamedTuple, Optional, Tuple

from bundle import LIVE, NPOS, Bundle, Limits, Score, bundle_bytes, fault_of
from scale import BadInput
from weights import Verdict

TOP = Path(__file__).resolve().parent.parent


class Program(NamedTuple):
    """A proved program: what it takes, the variable that may name another one, and the crate that builds it."""
    limits: Limits
    variable: str
    crate: str

    def name(self) -> str:
        """How it is called."""
        return self.limits.program

    def words(self) -> Optional[List[str]]:
        """The words that run it: those of its variable, or the one that was built here, or else the one in release/, where that is
        of these sources; None where there is none."""
        try:
            words = shlex.split(os.environ.get(self.variable, ''))
        except ValueError:
            return None
        if words:
            return words if shutil.which(words[0]) else None
        built, released = TOP / 'crates' / self.crate / 'out' / self.crate, TOP / 'release' / self.name()
        if os.access(built, os.X_OK):
            return [str(built)]
        return [str(released)] if is_released(TOP, self.crate, self.name()) else None

    def where(self) -> str:
        """Why it is not there."""
        named = os.environ.get(self.variable)
        return f'{self.variable} names {named!r}, which does not run' if named else f'crates/{self.crate} is not built'


@lru_cache(maxsize=None)
def is_released(top: Path, crate: str, name: str) -> bool:
    """Whether the program in release/ is the one that the gate built from these sources, as the wrapper at the top asks, too."""
    program, sums = top / 'release' / name, top / 'release' / 'SUMS'
    if not os.access(program, os.X_OK) or not sums.exists():
        return False
    sources = subprocess.run([str(top / 'tools' / 'sources'), crate], stdout=subprocess.PIPE, stderr=subprocess.DEVNULL, check=False)
    line = f'{sources.stdout.decode().strip()} {hashlib.sha256(program.read_bytes()).hexdigest()} {name}'
    return sources.returncode == 0 and line in sums.read_text().splitlines()


CHECKER = Program(NPOS, 'NPOS_PROGRAM', 'npos')
WEIGHER = Program(LIVE, 'NPOS_LIVE_PROGRAM', 'npos_live')


def command() -> Optional[List[str]]:
    """The words that run npos; None where it is not there."""
    return CHECKER.words()


def program_for(bundle: Bundle) -> Program:
    """The program that takes a bundle: npos where it fits, else npos-live; refused where that is not there."""
    over = fault_of(bundle, NPOS)
    if over and WEIGHER.words() is None:
        raise BadInput(f'the election is over a limit of npos ({over}), and npos-live, which takes it, is not there: '
                       f'{WEIGHER.where()}; NPOS_LIVE_PROGRAM may name it')
    if not over and CHECKER.words() is None:
        raise BadInput(f'the program is not there: {CHECKER.where()}; ./npos builds it, and NPOS_PROGRAM may name another')
    return WEIGHER if over else CHECKER


class Run(NamedTuple):
    """What the program wrote, its status, and how many seconds it took."""
    text: str
    status: int
    seconds: float


def ask(words: List[str], bundle: Bundle, program: Optional[Program] = None) -> Run:
    """Runs the program that takes a bundle, or the one that is named, on its bytes."""
    program = program or program_for(bundle)
    start = time.perf_counter()
    done = subprocess.run((program.words() or []) + words, input=bundle_bytes(bundle), stdout=subprocess.PIPE,
                          stderr=subprocess.DEVNULL, check=False)
    seconds = time.perf_counter() - start
    if done.returncode not in (0, 1, 3):
        raise BadInput(f'the program ended with {done.returncode} when it was asked: {program.name()} {" ".join(words)}')
    return Run(done.stdout.decode(errors='replace'), done.returncode, seconds)


@dataclass
class Report:
    """The lines that `npos check`, `npos mine` or `npos-live weigh` wrote."""
    members: List[Tuple[bytes, int]] = field(default_factory=list)
    score: Optional[Score] = None
    solution: Optional[bytes] = None
    verdict: Optional[Verdict] = None
    settled: bool = False


class Denial(NamedTuple):
    """Who denies a committee: the target that a group of voters all nominate, the seats that their stake pays, how many members
    they nominate between them, their stake, and how many they are."""
    account: bytes
    seats: int
    members: int
    stake: int
    voters: int


FORMS = {
    'rounds': '([0-9]{1,4})( settled)?',
    'member': '([0-9a-f]{64}) ([0-9]{1,20})',
    'score': '([0-9]{1,20}) ([0-9]{1,20}) ([0-9]{1,39})',
    'solution': '((?:[0-9a-f]{2})+)',
    'verdict': '([0-9]{1,2}(?: [0-9]{1,39}){0,3})',
}


def report_of(data: bytes) -> Report:
    """The report that a text is. A fault line and a member that was lost leave nothing to work with, so they are refused."""
    report = Report()
    try:
        lines = data.decode('ascii').splitlines()
    except UnicodeDecodeError:
        raise BadInput('the report is no text that npos check or npos mine wrote') from None
    for number, line in enumerate(lines, 1):
        word, _, rest = line.partition(' ')
        if word in ('fault', 'lost'):
            raise BadInput(f'the report says {line[:80]!r}, so there are no weights to work with')
        found = re.fullmatch(FORMS.get(word, '(?!)'), rest)
        if not found:
            raise BadInput(f'line {number} of the report is none that npos check or npos mine writes: {line[:60]!r}')
        take_line(report, word, found)
    if report.verdict is None:
        raise BadInput('the report has no line with a verdict')
    return report


def take_line(report: Report, word: str, found: 're.Match[str]') -> None:
    """Adds what a line of a report says."""
    if word == 'rounds':
        report.settled = found[2] is not None
    elif word == 'member':
        report.members.append((bytes.fromhex(found[1]), int(found[2])))
    elif word == 'score':
        report.score = int(found[1]), int(found[2]), int(found[3])
    elif word == 'solution':
        report.solution = bytes.fromhex(found[1])
    else:
        report.verdict = tuple(map(int, found[1].split()))


def verdict_in(text: str) -> Optional[Verdict]:
    """The verdict in the last line of what the program wrote, or None where it has none."""
    found = re.search('^verdict ([0-9]{1,2}(?: [0-9]{1,39}){0,3})\\n\\Z', text, re.MULTILINE)
    return tuple(map(int, found[1].split())) if found else None


def denial_of(text: str) -> Optional[Denial]:
    """What `npos-live judge` wrote of a committee: None where nobody denies it."""
    if text == 'verdict 0\n':
        return None
    found = re.match('denied ([0-9a-f]{64}) seats ([0-9]{1,10}) members ([0-9]{1,10}) stake ([0-9]{1,20})\n', text)
    if not found:
        raise BadInput(f'the program wrote what npos-live judge does not write: {text[:60]!r}')
    return Denial(bytes.fromhex(found[1]), int(found[2]), int(found[3]), int(found[4]), len(re.findall('^voter ', text, re.MULTILINE)))

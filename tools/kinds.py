"""What bytes are that are not what they were handed in as: another kind of a chain's work, which another option takes."""
from __future__ import annotations

from typing import Callable, NamedTuple, Optional, TypeVar

import answers
from scale import BadInput, Reader
from snapshots import MOST_LISTED, take_targets, take_voters
from solutions import WIDTHS, read_whole, take_score
from supports import COMPUTED, take_supports
from weights import take_entries

Value = TypeVar('Value')


class Kind(NamedTuple):
    """A kind of bytes: its name, what takes it, and how it is read with so many lists."""
    name: str
    option: str
    take: Callable[[Reader, int], object]


def take_raw(reader: Reader, groups: int) -> object:
    """A RawSolution."""
    return take_entries(reader, groups, MOST_LISTED), take_score(reader), reader.fixed(4)


def take_signed(reader: Reader, groups: int) -> object:
    """A SignedSubmission."""
    return reader.take(48), take_raw(reader, groups), reader.take(16)


def take_paged(reader: Reader, groups: int) -> object:
    """A PagedRawSolution."""
    return reader.many(MOST_LISTED, lambda: take_entries(reader, groups, MOST_LISTED)), take_score(reader), reader.fixed(4)


def take_ready(reader: Reader, groups: int) -> object:
    """A ReadySolution, which has no lists of entries."""
    return take_supports(reader), take_score(reader), reader.tag(len(COMPUTED))


def take_snapshot(reader: Reader, groups: int) -> object:
    """A RoundSnapshot."""
    return take_voters(reader), take_targets(reader)


KINDS = [Kind('a RawSolution', '--solution', take_raw), Kind('a SignedSubmission', '--submission', take_signed),
         Kind('a PagedRawSolution', '--paged', take_paged), Kind('a ReadySolution', '--ready', take_ready),
         Kind('a RoundSnapshot', 'standard input', take_snapshot)]


def kind_of(data: bytes, option: str) -> Optional[Kind]:
    """The kind that bytes are of, other than the one that an option takes, or None."""
    for kind in KINDS:
        for groups in WIDTHS if kind.option != option else ():
            try:
                read_whole(data, kind.name, lambda reader: kind.take(reader, groups))
            except BadInput:
                continue
            return kind
    return None


def of_kind(option: str, data: bytes, read: Callable[[bytes], Value]) -> Value:
    """What is read of a file that an option names; where it is of another kind, that is said besides."""
    try:
        return read(data)
    except BadInput as fault:
        try:
            got = answers.stored(data, 'the file')
        except BadInput:
            raise fault from None
        kind = None if isinstance(got, dict) else kind_of(got, option)
        if kind is None:
            raise fault from None
        raise BadInput(f'{fault}; the bytes are those of {kind.name}, which {kind.option} takes') from None

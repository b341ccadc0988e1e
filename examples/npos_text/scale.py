"""SCALE: the bytes of single parts, and a reader that refuses bytes where npos refuses them, in the same words."""
from __future__ import annotations

from typing import Callable, Iterable, List, Sequence, Tuple, TypeVar

Item = TypeVar('Item')

# an entry of a solution: the voter, each listed target with its share, and the last target, which gets the rest
Entry = Tuple[int, Sequence[Tuple[int, int]], int]

# the lists of the two forms of a solution, and the byte before the wide one
PLAIN, WIDE, WIDE_MARK = 16, 24, b'\xff'
GROUP_LIMIT = 16_384


class Fault(Exception):
    """What was read is not of the form; the message is one sentence."""


class Refusal(Fault):
    """Bytes that spell no value: the place of the part that does not stand there, and why, as fault lines say it."""

    def __init__(self, at: int, why: str) -> None:
        super().__init__(f'at {at}: {why}')
        self.at, self.why = at, why


# ## Writing

def compact(value: int) -> bytes:
    """A number in the shortest of the four modes."""
    if value < 1 << 6:
        return bytes([value << 2])
    if value < 1 << 14:
        return (value << 2 | 1).to_bytes(2, 'little')
    if value < 1 << 30:
        return (value << 2 | 2).to_bytes(4, 'little')
    count = (value.bit_length() + 7) // 8
    return bytes([count - 4 << 2 | 3]) + value.to_bytes(count, 'little')


def account(number: int) -> bytes:
    """The account that is this number."""
    return number.to_bytes(32, 'big')


def score(minimal: int, total: int, squares: int) -> bytes:
    """The least support, the sum of the supports and the sum of their squares."""
    return compact(minimal) + compact(total) + squares.to_bytes(16, 'little')


def byte_list(data: bytes) -> bytes:
    """Bytes behind their length."""
    return compact(len(data)) + data


def listed(items: Iterable[bytes]) -> bytes:
    """Items behind their number."""
    spelled = list(items)
    return compact(len(spelled)) + b''.join(spelled)


def run(items: Iterable[bytes], is_ended: bool = True) -> bytes:
    """Items with a 1 before each, and a 0 behind the last."""
    return b''.join(b'\x01' + item for item in items) + b'\x00' * is_ended


def solution(entries: Iterable[Entry], is_wide: bool = False) -> bytes:
    """A solution of entries, each in the list of its number of targets. It is wide where that is asked for, or where an entry
    has more than 16 targets."""
    groups: List[List[bytes]] = [[] for _ in range(WIDE)]
    for voter, shares, last in entries:
        parts = b''.join(compact(target) + compact(share) for target, share in shares)
        groups[len(shares)].append(compact(voter) + parts + compact(last))
    if is_wide or any(groups[PLAIN:]):
        return WIDE_MARK + b''.join(map(listed, groups))
    return b''.join(map(listed, groups[:PLAIN]))


# ## Reading

class Reader:
    """Bytes with the place that was come to."""

    def __init__(self, data: bytes) -> None:
        self.data, self.at = data, 0

    def refusal(self, at: int, why: str) -> Fault:
        """What is raised of the part at this place."""
        return Refusal(at, why)

    def take(self, count: int) -> bytes:
        """So many bytes as they are."""
        if self.at + count > len(self.data):
            raise self.refusal(self.at, 'short')
        self.at += count
        return self.data[self.at - count:self.at]

    def tag(self, count: int) -> int:
        """A byte below the count."""
        at = self.at
        found = self.take(1)[0]
        if found >= count:
            raise self.refusal(at, 'badtag')
        return found

    def compact(self, bits: int = 64) -> int:
        """A number below 2^bits in its shortest mode."""
        at = self.at
        first = self.take(1)[0]
        mode, width = first & 3, 1 << (first & 3)
        if mode == 3:
            width = (first >> 2) + 5
            if 8 * (width - 1) > bits:
                raise self.refusal(at, 'toowide')
        if at + width > len(self.data):
            raise self.refusal(at, 'short')
        self.at = at + width
        value = int.from_bytes(self.data[at:self.at], 'little') >> (8 if mode == 3 else 2)
        if value < (0, 1 << 6, 1 << 14, 1 << 30)[mode] or mode == 3 and self.data[self.at - 1] == 0:
            raise self.refusal(at, 'notshortest')
        if value >> bits:
            raise self.refusal(at, 'toowide')
        return value

    def length(self, limit: int) -> int:
        """The number of items of a list that has at most so many."""
        at = self.at
        count = self.compact(32)
        if count > limit:
            raise self.refusal(at, 'toomany')
        return count

    def many(self, limit: int, one: Callable[[], Item]) -> List[Item]:
        """A list of at most so many items."""
        return [one() for _ in range(self.length(limit))]

    def end(self) -> None:
        """Nothing stands behind the value."""
        if self.at < len(self.data):
            raise self.refusal(self.at, 'trailing')


def is_wide(data: bytes) -> bool:
    """Whether the bytes of a solution are of its wide form."""
    return data[:1] == WIDE_MARK


def entries_of(data: bytes) -> List[Entry]:
    """The entries of a solution's bytes."""
    reader = Reader(data)
    groups = PLAIN
    if is_wide(data):
        reader.take(1)
        groups = WIDE

    def entry(group: int) -> Entry:
        voter = reader.compact(32)
        shares = [(reader.compact(16), reader.compact(16)) for _ in range(group)]
        return voter, shares, reader.compact(16)

    entries = [one for group in range(groups) for one in reader.many(GROUP_LIMIT, lambda: entry(group))]
    reader.end()
    return entries

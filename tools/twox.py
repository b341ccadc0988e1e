"""The hashes of a chain's storage keys: XXH64 with the seeds 0, 1, .., and the keys that are made of them."""
from __future__ import annotations

import re
from functools import lru_cache
from typing import Sequence

MASK = (1 << 64) - 1
PRIMES = (0x9E3779B185EBCA87, 0xC2B2AE3D27D4EB4F, 0x165667B19E3779F9, 0x85EBCA77C2B2AE63, 0x27D4EB2F165667C5)


def turned(value: int, by: int) -> int:
    """A number of 64 bits, turned to the left."""
    return (value << by | value >> (64 - by)) & MASK


def mixed(lane: int, word: int) -> int:
    """A lane after one more word of the input."""
    return turned((lane + word * PRIMES[1]) & MASK, 31) * PRIMES[0] & MASK


def stripes(data: bytes, seed: int) -> int:
    """What the whole pieces of 32 bytes come to, which go through four lanes."""
    if len(data) < 32:
        return (seed + PRIMES[4]) & MASK
    lanes = [seed + PRIMES[0] + PRIMES[1], seed + PRIMES[1], seed, seed - PRIMES[0]]
    for at in range(0, len(data) - len(data) % 32, 8):
        word = int.from_bytes(data[at:at + 8], 'little')
        lanes[at // 8 % 4] = mixed(lanes[at // 8 % 4] & MASK, word)
    total = sum(turned(lane, by) for lane, by in zip(lanes, (1, 7, 12, 18))) & MASK
    for lane in lanes:
        total = ((total ^ mixed(0, lane)) * PRIMES[0] + PRIMES[3]) & MASK
    return total


def xxh64(data: bytes, seed: int) -> int:
    """The hash XXH64 of bytes."""
    total = (stripes(data, seed) + len(data)) & MASK
    at = len(data) - len(data) % 32
    while at + 8 <= len(data):
        word = mixed(0, int.from_bytes(data[at:at + 8], 'little'))
        total, at = (turned(total ^ word, 27) * PRIMES[0] + PRIMES[3]) & MASK, at + 8
    if at + 4 <= len(data):
        word = int.from_bytes(data[at:at + 4], 'little') * PRIMES[0] & MASK
        total, at = (turned(total ^ word, 23) * PRIMES[1] + PRIMES[2]) & MASK, at + 4
    for byte in data[at:]:
        total = turned(total ^ (byte * PRIMES[4] & MASK), 11) * PRIMES[0] & MASK
    total = (total ^ total >> 33) * PRIMES[1] & MASK
    total = (total ^ total >> 29) * PRIMES[2] & MASK
    return total ^ total >> 32


def twox(data: bytes, bits: int) -> bytes:
    """The hashes of the seeds 0, 1, .., each of 64 bits, little end first."""
    return b''.join(xxh64(data, seed).to_bytes(8, 'little') for seed in range(bits // 64))


@lru_cache(maxsize=None)
def named(name: str) -> bytes:
    """The half of a key that the name of a pallet, or of an item, comes to."""
    return twox(name.encode(), 128)


def entry(part: bytes) -> bytes:
    """What an entry's key adds in a map with the hasher Twox64Concat."""
    return twox(part, 64) + part


def key(pallet: str, item: str, *parts: bytes) -> bytes:
    """The key of an item, or of an entry of a map."""
    return named(pallet) + named(item) + b''.join(map(entry, parts))


def is_name(word: str) -> bool:
    """Whether a word may be the name of a pallet or of an item."""
    return re.fullmatch('[A-Za-z_][A-Za-z0-9_]{0,199}', word) is not None


def parts_of(rest: bytes, sizes: Sequence[int]) -> Sequence[bytes]:
    """The parts of an entry's key behind its item, of these sizes; an empty list where they are not such parts."""
    if len(rest) != sum(sizes) + 8 * len(sizes):
        return []
    parts, at = [], 0
    for size in sizes:
        part = rest[at + 8:at + 8 + size]
        if rest[at:at + 8] != twox(part, 64):
            return []
        parts.append(part)
        at += 8 + size
    return parts

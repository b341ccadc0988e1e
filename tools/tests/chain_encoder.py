"""What a chain's storage holds, encoded from the published types of its pallets, apart from the code of the scripts."""
from __future__ import annotations

import json
import struct
from typing import Any, Dict, Iterable, List, Sequence, Tuple

M = 0xFFFFFFFFFFFFFFFF
P1, P2, P3, P4, P5 = 11400714785074694791, 14029467366897019727, 1609587929392839161, 9650029242287828579, 2870177450012600261

Voter = Tuple[bytes, int, List[bytes]]
Given = Tuple[int, List[Tuple[int, int]]]  # a voter, and its targets with their parts of 65,535
Support = Tuple[bytes, int, List[Tuple[bytes, int]]]


# ## Keys

def rotate(value: int, by: int) -> int:
    return ((value << by) | (value >> (64 - by))) & M


def xxh64(data: bytes, seed: int = 0) -> int:
    """XXH64, as its specification goes step by step."""
    lanes = [(seed + P1 + P2) & M, (seed + P2) & M, seed, (seed - P1) & M]
    rest = data
    while len(rest) >= 32:
        for i, word in enumerate(struct.unpack('<4Q', rest[:32])):
            lanes[i] = rotate((lanes[i] + word * P2) & M, 31) * P1 & M
        rest = rest[32:]
    total = (seed + P5) & M
    if len(data) >= 32:
        total = (rotate(lanes[0], 1) + rotate(lanes[1], 7) + rotate(lanes[2], 12) + rotate(lanes[3], 18)) & M
        for lane in lanes:
            total = ((total ^ (rotate(lane * P2 & M, 31) * P1 & M)) * P1 + P4) & M
    total = (total + len(data)) & M
    while len(rest) >= 8:
        word = struct.unpack('<Q', rest[:8])[0]
        total = (rotate(total ^ (rotate(word * P2 & M, 31) * P1 & M), 27) * P1 + P4) & M
        rest = rest[8:]
    if len(rest) >= 4:
        total = (rotate(total ^ (struct.unpack('<I', rest[:4])[0] * P1 & M), 23) * P2 + P3) & M
        rest = rest[4:]
    for byte in rest:
        total = rotate(total ^ (byte * P5 & M), 11) * P1 & M
    total = (total ^ (total >> 33)) * P2 & M
    total = (total ^ (total >> 29)) * P3 & M
    return total ^ (total >> 32)


def twox64_concat(part: bytes) -> bytes:
    return struct.pack('<Q', xxh64(part)) + part


def key(pallet: str, item: str, *parts: bytes) -> str:
    """The key of an item, or of an entry of a map."""
    halves = b''.join(struct.pack('<2Q', xxh64(name.encode(), 0), xxh64(name.encode(), 1)) for name in (pallet, item))
    return '0x' + (halves + b''.join(map(twox64_concat, parts))).hex()


def u32(value: int) -> bytes:
    return struct.pack('<I', value)


def u64(value: int) -> bytes:
    return struct.pack('<Q', value)


def u128(value: int) -> bytes:
    return struct.pack('<2Q', value & M, value >> 64)


def compact(value: int) -> bytes:
    """A compact number, by its four modes."""
    if value <= 63:
        return struct.pack('<B', value * 4)
    if value <= 16383:
        return struct.pack('<H', value * 4 + 1)
    if value <= 1073741823:
        return struct.pack('<I', value * 4 + 2)
    size = next(count for count in range(4, 68) if value < 256 ** count)
    return struct.pack('<B', (size - 4) * 4 + 3) + value.to_bytes(size, 'little')


def vec(items: Iterable[bytes]) -> bytes:
    listed = list(items)
    return compact(len(listed)) + b''.join(listed)


# ## Values

def voters(listed: Sequence[Voter]) -> bytes:
    return vec(account + u64(stake) + vec(targets) for account, stake, targets in listed)


def snapshot(listed: Sequence[Voter], targets: Sequence[bytes]) -> bytes:
    return voters(listed) + vec(targets)


def votes(given: Sequence[Given], groups: int) -> bytes:
    """A NposSolution of 16 or 24 fields; the part of the last target is left out."""
    fields: List[List[bytes]] = [[] for _ in range(groups)]
    for voter, parts in given:
        spelt = compact(voter) + b''.join(compact(target) + compact(part) for target, part in parts[:-1]) + compact(parts[-1][0])
        fields[len(parts) - 1].append(spelt)
    return b''.join(map(vec, fields))


def score(values: Tuple[int, int, int]) -> bytes:
    return b''.join(map(u128, values))


def raw_solution(given: Sequence[Given], claim: Tuple[int, int, int], turn: int, groups: int = 16) -> bytes:
    return votes(given, groups) + score(claim) + u32(turn)


def signed(raw: bytes, who: bytes) -> bytes:
    return who + u128(5 * 10 ** 12) + raw + u128(1234567)


def paged_solution(pages: Sequence[Sequence[Given]], claim: Tuple[int, int, int], turn: int, groups: int = 16) -> bytes:
    return vec(votes(page, groups) for page in pages) + score(claim) + u32(turn)


def supports(listed: Sequence[Support]) -> bytes:
    return vec(account + u128(total) + vec(who + u128(amount) for who, amount in backers) for account, total, backers in listed)


def ready_solution(listed: Sequence[Support], claim: Tuple[int, int, int], compute: int = 1) -> bytes:
    return supports(listed) + score(claim) + struct.pack('<B', compute)


def metadata(claim: Tuple[int, int, int], pages: Sequence[bool]) -> bytes:
    return u128(7) + u128(8) + u128(9) + score(claim) + vec(struct.pack('<?', page) for page in pages)


def others(backers: Sequence[Tuple[bytes, int]]) -> bytes:
    return vec(who + compact(amount) for who, amount in backers)


def exposures(listed: Sequence[Support], era: int, size: int, pallet: str = 'Staking') -> Dict[str, str]:
    """The overviews and the pages of an era, with so many nominators a page."""
    items: Dict[str, str] = {}
    for account, total, backers in listed:
        own = sum(amount for who, amount in backers if who == account)
        rest = [one for one in backers if one[0] != account]
        pages = [rest[at:at + size] for at in range(0, len(rest), size)]
        overview = compact(total) + compact(own) + u32(len(rest)) + u32(len(pages))
        items[key(pallet, 'ErasStakersOverview', u32(era), account)] = hexed(overview)
        for number, page in enumerate(pages):
            spelt = compact(sum(amount for _, amount in page)) + others(page)
            items[key(pallet, 'ErasStakersPaged', u32(era), account, u32(number))] = hexed(spelt)
    return items


def older_exposures(listed: Sequence[Support], era: int) -> Dict[str, str]:
    """The exposures of an era in the form before pages."""
    items: Dict[str, str] = {}
    for account, total, backers in listed:
        own = sum(amount for who, amount in backers if who == account)
        spelt = compact(total) + compact(own) + others([one for one in backers if one[0] != account])
        items[key('Staking', 'ErasStakers', u32(era), account)] = hexed(spelt)
    return items


def hexed(data: bytes) -> str:
    return '0x' + data.hex()


# ## How tools write a value

def single_forms(data: bytes) -> List[bytes]:
    """A value without its key, in each form."""
    text = hexed(data)
    answers: List[Any] = [text, {'jsonrpc': '2.0', 'result': text, 'id': 1}, {'id': 1, 'result': {'Some': text}}, {'Some': text},
                          [{'jsonrpc': '2.0', 'result': text, 'id': 1}]]
    wrapped = '\n'.join(data.hex()[at:at + 60] for at in range(0, 2 * len(data), 60))
    return [data, text.encode(), text.encode() + b'\r\n', data.hex().encode(), data.hex().upper().encode(), wrapped.encode(),
            b'\xef\xbb\xbf' + text.encode(), *(json.dumps(answer).encode() for answer in answers),
            json.dumps(answers[1], indent=4).encode()]


def keyed_forms(items: Dict[str, str]) -> List[bytes]:
    """Values by their keys, in each form."""
    pairs = [[one, value] for one, value in items.items()]
    listed = [{'key': one, 'value': value} for one, value in items.items()]
    changes = {'block': '0x' + '11' * 32, 'changes': [*pairs, ['0x' + '22' * 32, None]]}
    specification = {'name': 'Dev', 'genesis': {'raw': {'top': {**items, '0x' + '33' * 16: '0x'}, 'childrenDefault': {}}}}
    values: List[Any] = [items, pairs, listed, changes, [changes], {'jsonrpc': '2.0', 'result': [changes], 'id': 1},
                         {'result': pairs, 'id': 3}, specification,
                         {one: {'Some': value} for one, value in items.items()}]
    if len(items) == 1:
        values.append(listed[0])
    return [json.dumps(value).encode() for value in values]

"""The forms of streams, bundles, pools and states: of which parts each line stands, in words and in bytes.

A part takes its words from the front of those that are left, and its bytes from a reader.
"""
from __future__ import annotations

import re
from typing import Dict, List, Sequence, Tuple

from .scale import PLAIN, Fault, Reader, Refusal, account, byte_list, compact, entries_of, is_wide, score, solution


def shown(text: str) -> str:
    """A text as a sentence shows it: no more than its first part, and a word where there is none."""
    return text if 0 < len(text) <= 80 else text[:80] + '..' if text else 'nothing'


def number_of(word: str, bits: int) -> int:
    """A number below 2^bits in decimal digits."""
    if not re.fullmatch('[0-9]{1,39}', word) or int(word) >> bits:
        raise Fault(f'there stands {shown(word)}, and a number below 2^{bits} was expected')
    return int(word)


def hex_of(word: str) -> bytes:
    """Bytes in hexadecimal digits."""
    if not re.fullmatch('([0-9a-fA-F]{2})*', word):
        raise Fault(f'there stands {shown(word)}, and hexadecimal digits, two a byte, were expected')
    return bytes.fromhex(word)


def account_of(word: str) -> bytes:
    """An account: 64 hexadecimal digits, or `@7` for the account that is the number 7."""
    if re.fullmatch('@[0-9]{1,38}', word):
        return account(int(word[1:]))
    if re.fullmatch('[0-9a-fA-F]{64}', word):
        return bytes.fromhex(word)
    raise Fault(f'there stands {shown(word)}, and an account was expected: @ with a number, or 64 hexadecimal digits')


def name_of(data: bytes) -> str:
    """The shortest word of an account."""
    number = int.from_bytes(data, 'big')
    return f'@{number}' if number < 1 << 32 else data.hex()


def entry_of(word: str) -> Tuple[int, List[Tuple[int, int]], int]:
    """An entry `voter:target/share,..,last`."""
    if not re.fullmatch('[0-9]+:([0-9]+/[0-9]+,){0,23}[0-9]+', word):
        raise Fault(f'there stands {shown(word)}, and an entry voter:target/share,..,last with at most 24 targets was expected')
    voter, targets = word.split(':')
    *shares, last = targets.split(',')
    pairs = [tuple(number_of(part, 16) for part in one.split('/')) for one in shares]
    return number_of(voter, 32), [(target, share) for target, share in pairs], number_of(last, 16)


def entry_word(voter: int, shares: Sequence[Tuple[int, int]], last: int) -> str:
    """An entry as a word."""
    return f'{voter}:' + ','.join([*(f'{target}/{share}' for target, share in shares), str(last)])


class Part:
    """One part of a line."""

    label: str

    def write(self, words: List[str]) -> bytes:
        """The bytes of the words at the front, which are taken away; IndexError where they are too few."""
        raise NotImplementedError

    def read(self, reader: Reader) -> List[str]:
        """The words of the bytes that the reader comes to."""
        raise NotImplementedError


class Number(Part):
    """A compact number."""

    def __init__(self, bits: int, label: str = 'number') -> None:
        self.bits, self.label = bits, label

    def write(self, words: List[str]) -> bytes:
        return compact(number_of(words.pop(0), self.bits))

    def read(self, reader: Reader) -> List[str]:
        return [str(reader.compact(self.bits))]


class Account(Part):
    """An account."""

    label = 'account'

    def write(self, words: List[str]) -> bytes:
        return account_of(words.pop(0))

    def read(self, reader: Reader) -> List[str]:
        return [name_of(reader.take(32))]


class Claim(Part):
    """A score."""

    label = 'least-support sum squares'

    def write(self, words: List[str]) -> bytes:
        return score(*(number_of(words.pop(0), bits) for bits in (64, 64, 128)))

    def read(self, reader: Reader) -> List[str]:
        return [str(reader.compact()), str(reader.compact()), str(int.from_bytes(reader.take(16), 'little'))]


class Solution(Part):
    """A solution: all words that are left. The word `wide` says its form where its entries leave that open."""

    label = 'solution'
    limit = 2_097_152

    def write(self, words: List[str]) -> bytes:
        first, *others = words.pop(0), *words
        words.clear()
        if first.startswith('hex:') and not others:
            data = hex_of(first[4:])
        else:
            entries = others if first == 'wide' else [first, *others]
            data = solution(map(entry_of, entries), first == 'wide')
        if len(data) > self.limit:
            raise Fault(f'there stands a solution of {len(data)} bytes, and at most {self.limit} were expected')
        return byte_list(data)

    def read(self, reader: Reader) -> List[str]:
        data = reader.take(reader.length(self.limit))
        try:
            entries = entries_of(data)
        except Refusal:
            return ['hex:' + data.hex()]
        words = [entry_word(*entry) for entry in entries]
        is_open = is_wide(data) and all(len(shares) < PLAIN for _, shares, _ in entries)
        return ['wide'] * is_open + words if is_open or words else ['hex:' + data.hex()]


class Many(Part):
    """A list of items of some parts: all words that are left."""

    def __init__(self, limit: int, *parts: Part) -> None:
        self.limit, self.parts = limit, parts
        self.label = ' '.join(part.label for part in parts) + ' ..'

    def write(self, words: List[str]) -> bytes:
        items = []
        while words:
            items.append(b''.join(part.write(words) for part in self.parts))
        if len(items) > self.limit:
            raise Fault(f'there stand {len(items)} items, and at most {self.limit} were expected')
        return compact(len(items)) + b''.join(items)

    def read(self, reader: Reader) -> List[str]:
        count = reader.length(self.limit)
        return [word for _ in range(count) for part in self.parts for word in part.read(reader)]


class Joined(Part):
    """A list of items of which each is one word, its parts joined by `/`: all such words at the front."""

    def __init__(self, limit: int, *parts: Part) -> None:
        self.limit, self.parts = limit, parts
        self.one = '/'.join(part.label for part in parts)
        self.label = self.one + ' ..'

    def write(self, words: List[str]) -> bytes:
        items = []
        while words and '/' in words[0]:
            items.append(write_parts('each of them', self.parts, words.pop(0).split('/')))
        if len(items) > self.limit:
            raise Fault(f'there stand {len(items)} words {self.one}, and at most {self.limit} were expected')
        return compact(len(items)) + b''.join(items)

    def read(self, reader: Reader) -> List[str]:
        return ['/'.join(read_parts(self.parts, reader)) for _ in range(reader.length(self.limit))]


class Choice(Part):
    """One of some words, whose tag is its place among them, with the parts that it has behind it."""

    def __init__(self, label: str, choices: Dict[str, Tuple[Part, ...]]) -> None:
        self.label, self.choices = label, choices

    def write(self, words: List[str]) -> bytes:
        word = words.pop(0)
        if word not in self.choices:
            raise Fault(f'there stands {shown(word)}, and one of these words was expected: {", ".join(self.choices)}')
        return bytes([list(self.choices).index(word)]) + b''.join(part.write(words) for part in self.choices[word])

    def read(self, reader: Reader) -> List[str]:
        word = list(self.choices)[reader.tag(len(self.choices))]
        return [word, *read_parts(self.choices[word], reader)]


U16, U32, U64 = Number(16), Number(32), Number(64)

ENDOWMENTS, CALLS, TARGETS, VOTERS, EDGES = 65_536, 64, 2_048, 16_384, 262_144

# the params of a full genesis, in their order
PARAMS: Dict[str, Part] = {
    'root': Account(), 'seats': U32, 'era_blocks': U32, 'offset': U32, 'signed': U32, 'bonding_eras': U32,
    'least_bond': U64, 'thresholds': Many(200, U64), 'queue': U32, 'solution_max': U32, 'deposit': U64, 'reward': U64,
    'era_reward': U64,
}

# the kinds of call in the order of their tags
KINDS: Dict[str, Tuple[Part, ...]] = {
    'transfer': (Account(), U64), 'bond': (U64,), 'bond_extra': (U64,), 'unbond': (U64,), 'rebond': (U64,), 'withdraw': (),
    'nominate': (Many(64, Account()),), 'validate': (U32,), 'chill': (), 'rebag': (Account(),),
    'put_in_front': (Account(),), 'submit': (U32, Claim(), Solution()), 'points': (Many(512, Account(), U32),),
    'payout': (U32, Account()), 'offence': (U32, Account(), U32), 'cancel_slash': (U64,),
}

# the kinds of genesis in the order of their tags, each with its params behind the endowments
GENESES: Dict[str, Dict[str, Part]] = {'plain': {}, 'full': PARAMS, 'deferred': {**PARAMS, 'defer_eras': U32}}

# the kinds of item of a pool in the order of their tags
ITEMS: Dict[str, Tuple[Part, ...]] = {
    'join': (U64,), 'leave': (Number(64, 'points'),), 'redeem': (), 'reward': (U64,), 'claim': (), 'slash': (U64,), 'next_era': (),
}

ENDOW = (Account(), U64)
VOTER = (Account(), Number(64, 'stake'), Many(64, Number(16, 'vote')))
PACKED = (Claim(), Solution())
COMMITTEE = (Many(2_048, Number(16, 'member')),)
EDGE = (Number(32, 'voter'), Number(16, 'target'), Number(64, 'amount'))

MEMBERS, QUEUED, STATE_EDGES, SLASHES = 512, 16, 393_216, 256
COMMISSION, PARTS = Number(32, 'commission'), (Account(), Number(64, 'amount'))

# the lines of a state behind its params
STATE: Dict[str, Tuple[Part, ...]] = {
    'due': (U64,), 'sums': (Number(64, 'genesis'), Number(64, 'minted'), Number(64, 'burned')),
    'row': (Account(), Number(64, 'free'), Number(64, 'active'), Joined(32, Number(64, 'value'), Number(32, 'release')),
            Number(64, 'held')),
    'role': (Account(), Number(32, 'bag'), Choice('kind ..', {'nominator': (Many(64, Account()),), 'validator': (COMMISSION,)})),
    'era': (U32,),
    'member': (Account(), COMMISSION, Joined(16_384, *PARTS), Number(32, 'points'),
               Choice('unclaimed or claimed', {'unclaimed': (), 'claimed': ()}), Number(32, 'fraction')),
    'target': (Account(), COMMISSION), 'voter': VOTER, 'committee': (Many(512, Number(16, 'member')),), 'edge': EDGE,
    'next_submission': (U64,), 'submission': (U64, Account(), Claim(), Solution()),
    'next_slash': (U64,), 'slash': (U64, Number(32, 'due-era'), Joined(16_384, *PARTS)),
}


def write_parts(name: str, parts: Sequence[Part], words: Sequence[str]) -> bytes:
    """The bytes of the words behind a name, which have to be exactly those of the parts."""
    rest = list(words)
    try:
        spelled = b''.join(part.write(rest) for part in parts)
        if not rest:
            return spelled
    except IndexError:
        pass
    needs = ' '.join(part.label for part in parts) or 'nothing more'
    raise Fault(f'{name} needs: {needs}; there stands: {shown(" ".join(words))}')


def read_parts(parts: Sequence[Part], reader: Reader) -> List[str]:
    """The words of the parts that the reader comes to."""
    return [word for part in parts for word in part.read(reader)]

"""A chain as its stream, or a state and the blocks behind it, and what npos wrote of them tell it together: calls, submissions,
stakes, roles and bags."""
from __future__ import annotations

from bisect import bisect_left
from dataclasses import dataclass, field
from typing import Dict, Iterator, List, NamedTuple, Optional

from .elections import Election, Voter
from .forms import KINDS, account_of, name_of
from .reading import Line, Reading
from .scale import Fault

VOTERS = 16_384


class Told(NamedTuple):
    """A line that was written, its number, the block it belongs to, and the call that it speaks of."""

    number: int
    words: List[str]
    block: int
    call: Optional[Line]


def stream_of(data: bytes) -> Reading:
    """The stream that the bytes spell, or the state with blocks, or its front where they are damaged further on."""
    reading, state = Reading(data, 'stream'), Reading(data, 'state')
    if reading.fault and (state.fault is None or state.fault.at > reading.fault.at):
        reading = state
    for other in ('bundle', 'pool') if reading.fault else ():
        if not Reading(data, other).fault:
            raise Fault(f'these bytes are a {other}, and a stream was expected')
    return reading


def calls_of(reading: Reading) -> Dict[int, List[Line]]:
    """The calls of each block, by its number."""
    blocks: Dict[int, List[Line]] = {}
    number = 0
    for line in reading.lines:
        if line.words[0] == 'block':
            number = int(line.words[1])
            blocks[number] = []
        elif line.words[0] == 'call':
            blocks[number].append(line)
    return blocks


def told(reading: Reading, lines: List[str]) -> Iterator[Told]:
    """The lines that were written of a stream, each with the call that it speaks of."""
    blocks = calls_of(reading)
    block = 0
    for number, text in enumerate(lines, 1):
        words = text.split()
        call = None
        if words[0] == 'block':
            block = int(words[1])
        if words[0] == 'call':
            calls = blocks.get(block, [])
            if int(words[1]) >= len(calls):
                raise Fault(f'line {number}: there stands {text}, and block {block} of the stream has {len(calls)} calls')
            call = calls[int(words[1])]
        yield Told(number, words, block, call)


class Submission(NamedTuple):
    """Who handed in which work (its words in a bundle), for which round, where; block 0 where it stands in a state."""

    who: str
    round: int
    work: List[str]
    block: int
    call: int


def submissions_of(reading: Reading, lines: List[str]) -> Dict[int, Submission]:
    """The accepted submissions by their numbers, those that wait in a state first."""
    found: Dict[int, Submission] = {}
    number = 1
    for state_line in reading.lines:
        if state_line.words[0] == 'next_submission':
            number = int(state_line.words[1])
        if state_line.words[0] == 'submission':
            queued, who, *work = state_line.words[1:]
            found[int(queued)] = Submission(who, Chain(reading).era + 1, ['packed', *work], 0, 0)
    for line in told(reading, lines):
        if line.call and line.call.words[2] == 'submit' and line.words[2] == 'ok':
            who, _, turn, *work = line.call.words[1:]
            found[number] = Submission(who, int(turn), ['packed', *work], line.block, int(line.words[1]))
            number += 1
    return found


@dataclass
class Row:
    """What is bonded of an account, as far as elections look at it."""

    active: int = 0
    chunks: List[List[int]] = field(default_factory=list)
    votes: Optional[List[str]] = None
    bag: int = -1


class Chain:
    """Stakes, roles and bags, moved on by the calls that were done. Accounts are 64 hexadecimal digits."""

    def __init__(self, reading: Reading) -> None:
        words = {line.words[0]: line.words[1:] for line in reading.lines if line.words[0] not in ('endow', 'call', 'block')}
        self.has_rounds = 'era_reward' in words
        self.thresholds = [int(one) for one in words.get('thresholds', [])]
        self.seats, self.era_blocks, self.offset, self.bonding = (
            int(words[name][0]) if self.has_rounds else 0 for name in ('seats', 'era_blocks', 'offset', 'bonding_eras'))
        self.rows: Dict[str, Row] = {}
        self.bags: Dict[int, List[str]] = {}
        # of a state, that of its last block
        due = int(words.get('due', ['1'])[0])
        self.era = (due - 2) // self.era_blocks if self.era_blocks and due > 1 else 0
        for line in reading.lines:
            if line.words[0] in ('row', 'role'):
                self.take(*line.words)

    def take(self, word: str, name: str, *rest: str) -> None:
        """What a row or a role of a state says."""
        who = account_of(name).hex()
        row = self.row(who)
        if word == 'row':
            row.active, row.chunks = int(rest[1]), [[int(part) for part in chunk.split('/')] for chunk in rest[2:-1]]
            return
        row.bag = int(rest[0])
        self.bags.setdefault(row.bag, []).append(who)
        row.votes = [who] if rest[1] == 'validator' else [account_of(vote).hex() for vote in rest[2:]]

    def row(self, who: str) -> Row:
        """What is kept of an account."""
        return self.rows.setdefault(who, Row())

    def bag_of(self, who: str) -> int:
        """The number of thresholds below the active stake."""
        return bisect_left(self.thresholds, self.row(who).active)

    def leave(self, who: str) -> None:
        """Stands in no bag any more."""
        if self.row(who).bag >= 0:
            self.bags[self.row(who).bag].remove(who)
        self.row(who).bag = -1

    def join(self, who: str) -> None:
        """Moves to the tail of the bag of the active stake."""
        self.leave(who)
        self.row(who).bag = self.bag_of(who)
        self.bags.setdefault(self.row(who).bag, []).append(who)

    def update(self, who: str) -> None:
        """The active stake is another one."""
        if self.row(who).bag not in (-1, self.bag_of(who)):
            self.join(who)

    def take_role(self, who: str, votes: List[str]) -> None:
        """A validator votes for itself alone."""
        row = self.row(who)
        was = None if row.votes is None else row.votes == [who]
        row.votes = votes
        if was != (votes == [who]):
            self.join(who)

    def end_role(self, who: str) -> None:
        """Is neither validator nor nominator any more."""
        self.row(who).votes = None
        self.leave(who)

    def follow(self, line: Told) -> None:
        """What a line says was done."""
        if line.words[0] == 'era':
            self.era = int(line.words[1])
        elif line.words[0] == 'slashed':
            self.slash(line.words[1], int(line.words[2]))
        elif line.call and line.words[2] == 'ok':
            self.do(line.call.words[1:])

    def do(self, words: List[str]) -> None:
        """A call that was done. Those that move no stake, role or bag have no method."""
        who, kind, *rest = words
        method = getattr(self, 'do_' + kind, None)
        if method and kind in KINDS:
            caller = account_of(who).hex()
            accounts = kind in ('nominate', 'rebag', 'put_in_front')
            method(caller, *([account_of(one).hex() for one in rest] if accounts else [int(one) for one in rest]))

    def do_bond(self, who: str, value: int) -> None:
        self.row(who).active += value
        self.update(who)

    do_bond_extra = do_bond

    def do_unbond(self, who: str, value: int) -> None:
        row = self.row(who)
        value, release = min(value, row.active), self.era + (self.bonding or 28)
        row.active -= value
        if row.chunks and row.chunks[-1][1] == release:
            row.chunks[-1][0] += value
        else:
            row.chunks.append([value, release])
        self.update(who)

    def do_rebond(self, who: str, value: int) -> None:
        row = self.row(who)
        while value and row.chunks:
            back = min(value, row.chunks[-1][0])
            row.chunks[-1][0] -= back
            row.active += back
            value -= back
            row.chunks = [chunk for chunk in row.chunks if chunk[0]]
        self.update(who)

    def do_withdraw(self, who: str) -> None:
        row = self.row(who)
        row.chunks = [chunk for chunk in row.chunks if chunk[1] > self.era]
        if not row.active and not row.chunks:
            self.end_role(who)

    def do_nominate(self, who: str, *targets: str) -> None:
        self.take_role(who, list(targets))

    def do_validate(self, who: str, commission: int) -> None:
        self.take_role(who, [who])

    def do_chill(self, who: str) -> None:
        self.end_role(who)

    def do_rebag(self, who: str, whom: str) -> None:
        self.join(whom)

    def do_put_in_front(self, who: str, lighter: str) -> None:
        bag = self.bags[self.row(who).bag]
        bag.remove(who)
        bag.insert(bag.index(lighter), who)

    def slash(self, who: str, amount: int) -> None:
        """Takes active units first and then the chunks in their order."""
        row = self.row(who)
        taken = min(amount, row.active)
        row.active -= taken
        for chunk in row.chunks:
            part = min(amount - taken, chunk[0])
            chunk[0] -= part
            taken += part
        row.chunks = [chunk for chunk in row.chunks if chunk[0]]
        if not row.active and not row.chunks:
            self.end_role(who)

    def election(self) -> Election:
        """What a snapshot takes now."""
        targets = sorted(who for who, row in self.rows.items() if row.votes == [who])
        place = {who: at for at, who in enumerate(targets)}
        election = Election(self.seats, [name_of(bytes.fromhex(who)) for who in targets])
        for who in (who for bag in sorted(self.bags, reverse=True) for who in self.bags[bag]):
            row = self.row(who)
            votes = [place[target] for target in row.votes or [] if target in place]
            if votes and row.active and len(election.voters) < VOTERS:
                election.voters.append(Voter(name_of(bytes.fromhex(who)), row.active, votes))
        return election


class Round(NamedTuple):
    """A round with its election, in the block of its snapshot, and what was seated, as far as it was decided."""

    number: int
    block: int
    election: Election
    seated: List[List[str]]


def is_refused(reading: Reading, lines: List[str]) -> bool:
    """Whether a state is none: what was written says so, or its bytes end, or are damaged, before its blocks begin."""
    is_cut = reading.fault is not None and reading.next not in ('', 'block', 'call', 'nothing')
    return is_cut or any(line.startswith('fault 0 checkpoint ') for line in lines)


def open_round(reading: Reading, chain: Chain, lines: List[str]) -> List[Round]:
    """The round that is open in a state, if one is."""
    names = [line.words[0] for line in reading.lines]
    if 'round' not in names or is_refused(reading, lines):
        return []
    election = Election(chain.seats)
    for line in reading.lines[names.index('round') + 1:]:
        if line.words[0] == 'target':
            election.targets.append(line.words[1])
        elif line.words[0] == 'voter':
            election.voters.append(Voter(line.words[1], int(line.words[2]), [int(vote) for vote in line.words[3:]]))
        else:
            break
    return [Round(chain.era + 1, chain.era * chain.era_blocks + chain.offset + 1, election, [])]


def rounds_of(reading: Reading, lines: List[str]) -> List[Round]:
    """The rounds that have a snapshot. What was written and what the stream makes of it have to agree."""
    chain = Chain(reading)
    rounds = open_round(reading, chain, lines)
    for line in told(reading, lines):
        word = line.words[0]
        if word == 'snapshot':
            rounds.append(Round(int(line.words[1]), line.block, chain.election(), []))
            must_agree(line, rounds[-1].election)
        elif word in ('seat', 'member') and rounds:
            rounds[-1].seated.append(line.words)
        try:
            chain.follow(line)
        except (KeyError, ValueError):
            raise Fault(f'line {line.number}: there stands {" ".join(line.words)}, which the stream does not lead to') from None
    return rounds


def must_agree(line: Told, election: Election) -> None:
    """The line on a snapshot tells the numbers of the election."""
    due = f'targets {len(election.targets)} voters {len(election.voters)} total {election.total}'
    if ' '.join(line.words[2:]) != due:
        raise Fault(f'line {line.number}: there stands {" ".join(line.words)}, and by the stream {due} was expected')

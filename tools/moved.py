"""The election of a chain's snapshot as a bundle of `npos`, with what was left out, and how numbers and accounts moved.

Votes for accounts that are no targets, voters without a vote then, and stakes of 0 are left out; the voters behind them get
lower numbers. Work of a chain follows: the entries of a solution, or the edges that a chain's own weights are.
"""
from __future__ import annotations

from dataclasses import dataclass, field
from typing import Dict, List, Optional, Sequence, Tuple

from accounts import Naming
from bundle import (LIVE, MOST_VOTES, NPOS, WIDE_GROUPS, Bundle, Edge, Packed, Plain, Score, Voter, fault_of)
from scale import BadInput
from snapshots import Snapshot
from solutions import Solution
from supports import Backed, Elected
from weights import Entry, Weights, expand, score_of, solution_bytes


@dataclass
class Moved:
    """The election of a snapshot, what each voter's number became, and what was left out, in words."""
    bundle: Bundle
    numbers: List[Optional[int]]
    idle: List[bool]
    words: List[str] = field(default_factory=list)

    def first_numbers(self) -> List[int]:
        """The number in the snapshot of each voter of the bundle."""
        return [old for old, new in enumerate(self.numbers) if new is not None]


def election_of(snapshot: Snapshot, seats: int, naming: Naming) -> Moved:
    """The election of a snapshot: votes for no target, voters without a vote and stakes of 0 are left out."""
    refuse_twice('target', snapshot.targets, naming)
    refuse_twice('voter', [voter.account for voter in snapshot.voters], naming)
    places = {account: i for i, account in enumerate(snapshot.targets)}
    voters: List[Voter] = []
    moved = Moved(Bundle(seats, snapshot.targets, voters), [], [])
    lost, twice, idle, voteless = 0, 0, [], []
    for i, voter in enumerate(snapshot.voters):
        kept = [places[target] for target in voter.targets if target in places]
        votes = tuple(dict.fromkeys(kept))
        lost, twice = lost + len(voter.targets) - len(kept), twice + len(kept) - len(votes)
        stays = voter.stake > 0 and len(votes) > 0
        moved.numbers.append(len(voters) if stays else None)
        moved.idle.append(voter.stake == 0)
        if not stays:
            (voteless if voter.stake else idle).append(i)
        elif len(votes) > MOST_VOTES:
            raise BadInput(f'voter {i} ({naming.short(voter.account)}) nominates {len(votes)} targets, which do not fit: '
                           f'a voter has at most {MOST_VOTES} votes')
        else:
            voters.append(Voter(voter.account, voter.stake, votes))
    moved.words += left_out_words(snapshot, naming, lost, twice, idle, voteless)
    return moved


def left_out_words(snapshot: Snapshot, naming: Naming, lost: int, twice: int, idle: List[int],
                   voteless: List[int]) -> List[str]:
    """What has to be told of the votes and the voters that were left out."""
    def some(numbers: List[int]) -> str:
        names = [f'{i} ({naming.short(snapshot.voters[i].account)})' for i in numbers[:3]]
        return ', '.join(names) + (', ..' if len(numbers) > 3 else '')

    words = [(lost, f'left out: {lost:,} votes for accounts that are no targets'),
             (twice, f'left out: {twice:,} votes that stood twice'),
             (len(idle), f'left out: {len(idle):,} voters with a stake of 0: {some(idle)}'),
             (len(voteless), f'left out: {len(voteless):,} voters without a vote for a target: {some(voteless)}')]
    return [word for count, word in words if count]


def refuse_twice(what: str, accounts: List[bytes], naming: Naming) -> None:
    """Refuses a snapshot in which an account stands twice."""
    seen: Dict[bytes, int] = {}
    for i, account in enumerate(accounts):
        if seen.setdefault(account, i) != i:
            raise BadInput(f'{what}s {seen[account]} and {i} of the snapshot have one account, {naming.full(account)}')


def refuse_unfit(moved: Moved) -> None:
    """Refuses an election that no program takes, or none, and tells where only one of them does."""
    fault = fault_of(moved.bundle, LIVE)
    if fault:
        raise BadInput(fault)
    over = fault_of(moved.bundle, NPOS)
    if over:
        moved.words.append(f'over a limit of npos: {over}; npos-live takes this election')


# ## Solutions

def moved_entries(moved: Moved, entries: List[Entry]) -> Tuple[List[Entry], List[str]]:
    """The entries with the voters' new numbers, and what has to be told of them.

    An entry of a voter with a stake of 0 gives nothing and is left out. A voter that was left out for want of a vote cannot
    back anybody, so its entry gets a number that is no voter's, as one beyond the snapshot keeps: the verdict must not be yes.
    """
    kept: List[Entry] = []
    words: List[str] = []
    changed, out = 0, 0
    for entry in entries:
        number, word = number_of(moved, entry)
        if word:
            words.append(word)
        if number is None:
            out += 1
            continue
        changed += number != entry.voter
        kept.append(entry._replace(voter=number))
    if changed:
        words.append(f'{changed:,} of the {len(entries):,} entries of the solution have another voter number now')
    if out:
        words.append(f'left out: {out:,} entries of the solution, of voters with a stake of 0')
    return kept, words


def number_of(moved: Moved, entry: Entry) -> Tuple[Optional[int], str]:
    """The number of an entry's voter in the bundle, or None where it is left out; and a word where something is wrong."""
    voters, targets = len(moved.bundle.voters), len(moved.bundle.targets)
    if entry.voter >= len(moved.numbers):
        shift = len(moved.numbers) - voters
        return entry.voter - shift, f'wrong: the solution has an entry of voter {entry.voter}, which is none'
    if moved.idle[entry.voter]:
        return None, ''
    number = moved.numbers[entry.voter]
    if number is None:
        return voters, f'wrong: voter {entry.voter} backs target {entry.last} in the solution and nominates no target'
    if max(entry.targets()) >= targets:
        return number, f'wrong: voter {entry.voter} backs number {max(entry.targets())} in the solution, which is no target'
    return number, ''


def add_solution(moved: Moved, solution: Solution, own_score: bool) -> None:
    """Puts a chain's solution into the bundle as its work, with the chain's claim or its own score here."""
    entries, words = moved_entries(moved, solution.entries)
    words = solution.words + words
    widest = max((len(entry.targets()) for entry in entries), default=0)
    if widest > WIDE_GROUPS:
        raise BadInput(f'an entry of the solution has {widest} targets, which do not fit: it has at most {WIDE_GROUPS}')
    longest = max((sum(1 for entry in entries if len(entry.shares) == j) for j in range(WIDE_GROUPS)), default=0)
    if longest > LIVE.voters:
        raise BadInput(f'a group of {longest:,} entries does not fit: there are at most {LIVE.voters:,} voters')
    spelt = solution_bytes(entries)
    if len(spelt) > LIVE.solution_bytes:
        raise BadInput(f'a solution of {len(spelt):,} bytes does not fit: it has at most {LIVE.solution_bytes:,}')
    weights, _ = expand(moved.bundle, spelt)
    claim, word = claim_here(solution.score, weights, own_score)
    moved.bundle.work = Packed(claim, spelt)
    moved.words += few(words)
    if solution.round is not None:
        moved.words.append(f'the solution is of round {solution.round}, which a bundle does not tell')
    moved.words += [word] if word else []


def few(words: Sequence[str]) -> List[str]:
    """The first of many words, and how many more there are."""
    return [*words[:5], *([f'.. and {len(words) - 5:,} more'] if len(words) > 5 else [])]


def claim_here(score: Optional[Score], weights: Optional[Weights], own_score: bool) -> Tuple[Score, str]:
    """The score to claim, and a word where the chain's is another one than these shares come to here."""
    own = None if weights is None else score_of(weights)
    if score is None:
        return own or (0, 0, 0), 'no claim was handed in, so that the score that the shares have here is claimed'
    if own_score and own is not None:
        same = 'is the one of the chain' if own == score else f'replaces the chain\'s {" ".join(map(str, score))}'
        return own, f'the claimed score {" ".join(map(str, own))} {same}'
    if max(score[:2]) >= 1 << 64:
        raise BadInput('the claimed score does not fit: its least stake and its sum are below 2^64')
    if own_score:
        return score, 'the solution has no score of its own, since it is of no good form; the chain\'s stays'
    if own is not None and own != score:
        return score, (f'the score is {" ".join(map(str, own))} here, where shares are rounded down, so that the verdict on the '
                       'chain\'s claim is 9; --own-score claims that instead, and audit-substrate goes by the chain\'s rounding')
    return score, ''


# ## Weights as they are

def add_edges(moved: Moved, members: List[int], edges: List[Edge]) -> None:
    """Makes plain work of edges (voter, target, amount) in the snapshot's numbers; of those that give nothing none is kept."""
    kept: List[Edge] = []
    for voter, target, amount in edges:
        number = moved.numbers[voter]
        if amount:
            kept.append((len(moved.bundle.voters) if number is None else number, target, amount))
    put_plain(moved, Plain(members, kept))


def put_plain(moved: Moved, work: Plain) -> None:
    """Makes plain work the bundle's, if it fits."""
    if len(work.edges) > LIVE.edges:
        raise BadInput(f'{len(work.edges):,} edges do not fit: there are at most {LIVE.edges:,}')
    if len(work.committee) > LIVE.targets:
        raise BadInput(f'{len(work.committee):,} members do not fit: there are at most {LIVE.targets:,} targets')
    moved.bundle.work = work


def add_elected(moved: Moved, elected: Elected, naming: Naming) -> List[str]:
    """Makes plain work of supports or exposures, and gives what is wrong with their accounts: one that is no target, or no voter.

    Such a one gets the number of no target, or of no voter, so that the verdict is not yes.
    """
    places = {account: i for i, account in enumerate(moved.bundle.targets)}
    voters = {voter.account: i for i, voter in enumerate(moved.bundle.voters)}
    members, edges, strange_members, strange_backers = [], [], [], []
    for one in elected.members:
        place = places.get(one.account, len(places))
        members.append(place)
        strange_members += [one.account] if place == len(places) else []
        for account, amount in backers_of(one):
            number = voters.get(account, len(voters))
            strange_backers += [account] if number == len(voters) else []
            edges.append((number, place, amount))
    put_plain(moved, Plain(members, edges))
    return strangers('are elected and no targets', strange_members, naming) + \
        strangers('back somebody and are no voters that stay', strange_backers, naming)


def backers_of(one: Backed) -> List[Tuple[bytes, int]]:
    """Who gives how much to somebody, each once; of what is given in vain nothing is kept."""
    given: Dict[bytes, int] = {}
    for account, amount in one.backers:
        given[account] = given.get(account, 0) + amount
    if max(given.values(), default=0) >= 1 << 64:
        raise BadInput(f'an amount of {max(given.values()):,} does not fit: it is below 2^64')
    return [(account, amount) for account, amount in given.items() if amount]


def strangers(what: str, accounts: List[bytes], naming: Naming) -> List[str]:
    """A sentence on accounts that the snapshot does not have, if there are any."""
    different = list(dict.fromkeys(accounts))
    if not different:
        return []
    shown = ', '.join(naming.short(account) for account in different[:3])
    return [f'{len(different):,} accounts {what} of the snapshot: {shown}{", .." if len(different) > 3 else ""}; the snapshot may be '
            'of another election']

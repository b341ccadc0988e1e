"""What a chain in the manner of Substrate makes of a solution: its rounding of shares, its supports, its score, its refusals.

A listed share is a part of 65,535 of a voter's stake, and the last target gets the rest of the parts. Each is multiplied with
the stake and rounded to the nearest; what the sum is short of or over the stake is then given or taken unit by unit.
"""
from __future__ import annotations

from typing import Dict, List, NamedTuple, Optional, Sequence, Set, Tuple

from bundle import Edge, Score
from snapshots import Snapshot
from supports import Elected
from weights import WHOLE, Entry

MOST = (1 << 128) - 1  # where a chain's sum of squares stops growing


class Finding(NamedTuple):
    """What a chain makes of a solution: edges (voter, target, amount) in its numbers, the targets that they elect, the score of
    that, and what it refuses, in sentences. There are no edges where an entry is refused."""
    edges: Optional[List[Edge]]
    members: List[int]
    score: Optional[Score]
    wrong: List[str]


# ## Amounts

def nearest(stake: int, part: int) -> int:
    """A part of 65,535 of a stake, to the nearest unit; since 65,535 is odd nothing lies between two."""
    return (2 * stake * part + WHOLE) // (2 * WHOLE)


def normalised(amounts: Sequence[int], total: int) -> List[int]:
    """The amounts, changed so that they sum up to the total: raised from the least on, or lowered from the greatest on.

    The amounts are taken in rising order, equal ones as they stand. One that was raised stays next in turn while it is below
    an even part of the total, and one that was lowered while it is above the least.
    """
    turn = sorted(range(len(amounts)), key=lambda i: amounts[i])
    changed, difference = list(amounts), total - sum(amounts)
    if not amounts or difference == 0:
        return changed
    step = 1 if difference > 0 else -1
    bound = total // len(amounts) if difference > 0 else amounts[turn[0]]
    at = 0 if difference > 0 else len(turn) - 1
    each, left = divmod(abs(difference), len(amounts))
    # a round for each amount with an even part of the difference, and then units of what is left
    for size in [each] * (len(amounts) if each else 0):
        taken = size if step > 0 else min(size, changed[turn[at]])
        left += size - taken
        changed[turn[at]] += step * taken
        at = (at + step) % len(turn) if (changed[turn[at]] - bound) * step >= 0 else at
    while left:
        if step > 0 or changed[turn[at]] > 0:
            changed[turn[at]] += step
            left -= 1
            if (changed[turn[at]] - bound) * step < 0:
                continue
        at = (at + step) % len(turn)
    return changed


def amounts_of(entry: Entry, stake: int) -> List[Tuple[int, int]]:
    """The targets of an entry with what the chain gives to each; a share of 0 is passed over."""
    rest = WHOLE - sum(share for _, share in entry.shares)
    parts = [(target, share) for target, share in [*entry.shares, (entry.last, rest)] if share]
    given = normalised([nearest(stake, share) for _, share in parts], stake)
    return [(target, amount) for (target, _), amount in zip(parts, given)]


def score_of(supports: Sequence[int]) -> Score:
    """The least support, the sum of the supports, and the sum of their squares, which is better when less."""
    return min(supports, default=0), sum(supports), min(MOST, sum(support * support for support in supports))


# ## Solutions

def finding_of(snapshot: Snapshot, seats: int, entries: List[Entry], claim: Optional[Score]) -> Finding:
    """What a chain makes of a solution with this claim."""
    members = sorted({target for entry in entries for target in entry.targets()})
    wrong = [] if len(members) == seats else [f'it elects {len(members):,} targets for {seats:,} seats']
    faults = entry_faults(snapshot, entries)
    if faults:
        return Finding(None, members, None, wrong + faults)
    edges = [(entry.voter, target, amount) for entry in entries
             for target, amount in amounts_of(entry, snapshot.voters[entry.voter].stake)]
    supports: Dict[int, int] = {}
    for _, target, amount in edges:
        supports[target] = supports.get(target, 0) + amount
    score = score_of(list(supports.values()))
    if claim is not None and claim != score:
        wrong.append(f'it claims the score {words_of(claim)}, and its shares come to {words_of(score)}')
    return Finding(edges, members, score, wrong)


def words_of(score: Score) -> str:
    """A score in a sentence."""
    return f'(least support {score[0]:,}, sum {score[1]:,}, squares {score[2]:,})'


def entry_faults(snapshot: Snapshot, entries: List[Entry]) -> List[str]:
    """What is wrong with entries: with the first of them, and how many more there are."""
    places = {account: i for i, account in enumerate(snapshot.targets)}
    seen: Set[int] = set()
    faults = []
    for entry in entries:
        fault = entry_fault(snapshot, places, entry, seen)
        seen.add(entry.voter)
        if fault:
            faults.append(fault)
    return faults[:3] + ([f'and {len(faults) - 3:,} more of its entries are wrong'] if len(faults) > 3 else [])


def entry_fault(snapshot: Snapshot, places: Dict[bytes, int], entry: Entry, seen: Set[int]) -> str:
    """What a chain refuses of an entry, or nothing."""
    targets = entry.targets()
    if sum(share for _, share in entry.shares) >= WHOLE:
        return f'the shares of voter {entry.voter} leave nothing for its last target'
    if entry.voter >= len(snapshot.voters):
        return 'an entry is of a voter that is none' if entry.voter == len(snapshot.voters) else f'it names voter {entry.voter}, ' \
            'which is none'
    if max(targets) >= len(snapshot.targets):
        return f'voter {entry.voter} backs number {max(targets)}, which is no target'
    named = {places[target] for target in snapshot.voters[entry.voter].targets if target in places}
    stranger = next((target for target in targets if target not in named), None)
    if stranger is not None:
        return f'voter {entry.voter} backs target {stranger}, which it does not nominate'
    if entry.voter in seen:
        return f'voter {entry.voter} has two entries, which some releases of the pallet take'
    if len(set(targets)) < len(targets):
        return f'voter {entry.voter} backs a target twice, which some releases of the pallet take'
    return ''


# ## Supports

def supports_wrong(elected: Elected, seats: int) -> List[str]:
    """What is wrong with supports by themselves: their number, totals that are no sums, and another score than the one told."""
    wrong = [] if len(elected.members) == seats else [f'{len(elected.members):,} are elected for {seats:,} seats']
    odd = [one for one in elected.members if one.total != sum(amount for _, amount in one.backers)]
    for one in odd[:3]:
        wrong.append(f'the support of {one.account.hex()} is told as {one.total:,}, and its backers give '
                     f'{sum(amount for _, amount in one.backers):,}')
    if len(odd) > 3:
        wrong.append(f'and {len(odd) - 3:,} more totals are no sums')
    score = score_of([one.total for one in elected.members])
    if elected.score is not None and elected.score != score:
        wrong.append(f'the score is told as {words_of(elected.score)}, and the supports come to {words_of(score)}')
    return wrong

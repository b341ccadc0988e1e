"""What weights of an election come to: expanded solutions, supports, what is left over, scores, verdicts and the fill.

These are the rules of docs/RULES.md in whole numbers. They serve to draw and to cross-check; what is proved is `npos`.
"""
from __future__ import annotations

from typing import Dict, List, NamedTuple, Optional, Set, Tuple

from bundle import LIVE, NPOS, PLAIN_GROUPS, WIDE_GROUPS, WIDE_MARK, Bundle, Edge, Packed, Plain, Score, fault_of
from scale import REASONS, Misspelt, Reader, compact, spelt_list

WHOLE = 65535  # a whole stake in parts

Verdict = Tuple[int, ...]


class Entry(NamedTuple):
    """An entry of a solution: a voter, the targets with a listed share, and the last target, which gets the rest."""
    voter: int
    shares: Tuple[Tuple[int, int], ...]
    last: int

    def targets(self) -> List[int]:
        """All targets of the entry, in listed order."""
        return [target for target, _ in self.shares] + [self.last]


class Weights(NamedTuple):
    """A committee by rising position, and edges (voter, target, amount)."""
    members: List[int]
    edges: List[Edge]


# ## Solutions

def take_entries(reader: Reader, groups: int, most: int = LIVE.voters) -> List[Entry]:
    """The entries of a solution with so many groups, which stands next; those of group j have j targets."""
    def entry(listed: int) -> Entry:
        voter = reader.compact(32)
        shares = tuple((reader.compact(16), reader.compact(16)) for _ in range(listed))
        return Entry(voter, shares, reader.compact(16))

    return [one for j in range(groups) for one in reader.many(most, lambda: entry(j))]


def groups_bytes(entries: List[Entry], groups: int) -> bytes:
    """The spelling of so many groups; entries with as many targets keep their order."""
    spelt: List[List[bytes]] = [[] for _ in range(groups)]
    for entry in entries:
        shares = [compact(target) + compact(share) for target, share in entry.shares]
        spelt[len(shares)].append(b''.join([compact(entry.voter), *shares, compact(entry.last)]))
    return b''.join(map(spelt_list, spelt))


def solution_bytes(entries: List[Entry]) -> bytes:
    """The spelling of a solution: plain, or wide behind its mark where an entry has more than 16 targets."""
    if any(len(entry.shares) >= PLAIN_GROUPS for entry in entries):
        return WIDE_MARK + groups_bytes(entries, WIDE_GROUPS)
    return groups_bytes(entries, PLAIN_GROUPS)


def entries_of(solution: bytes, most: int = LIVE.voters) -> List[Entry]:
    """The entries of a solution, plain or wide, with at most so many in a list."""
    reader = Reader(solution, 'the solution')
    is_wide = solution.startswith(WIDE_MARK)
    reader.take(len(WIDE_MARK) if is_wide else 0)
    entries = take_entries(reader, WIDE_GROUPS if is_wide else PLAIN_GROUPS, most)
    reader.end()
    return entries


def entry_fault(bundle: Bundle, entry: Entry, seen: Set[int]) -> Optional[Verdict]:
    """The first verdict that applies to an entry, or None."""
    targets = entry.targets()
    if entry.voter >= len(bundle.voters):
        return 2, entry.voter
    for target in targets:
        if target >= len(bundle.targets):
            return 3, target
    if entry.voter in seen:
        return 4, entry.voter
    for i, target in enumerate(targets):
        if target in targets[:i]:
            return 5, target
    for target in targets:
        if target not in bundle.voters[entry.voter].votes:
            return 6, entry.voter, target
    shares = [share for _, share in entry.shares]
    return (7, entry.voter) if 0 in shares or sum(shares) >= WHOLE else None


def edges_of(entry: Entry, stake: int) -> List[Edge]:
    """The edges of an entry: each share rounded down, and the rest for the last target."""
    edges = [(entry.voter, target, stake * share // WHOLE) for target, share in entry.shares]
    return edges + [(entry.voter, entry.last, stake - sum(amount for _, _, amount in edges))]


def expand(bundle: Bundle, solution: bytes) -> Tuple[Optional[Weights], Verdict]:
    """The weights that a solution stands for, with (0,); or None with the verdict on its bytes or an entry."""
    most = LIVE.voters if fault_of(bundle, NPOS) else NPOS.voters
    try:
        entries = entries_of(solution, most)
    except Misspelt as fault:
        return None, (1, fault.at, REASONS[fault.why])
    seen: Set[int] = set()
    edges: List[Edge] = []
    for entry in entries:
        fault = entry_fault(bundle, entry, seen)
        if fault:
            return None, fault
        seen.add(entry.voter)
        edges += edges_of(entry, bundle.voters[entry.voter].stake)
    return Weights(sorted({target for _, target, _ in edges}), edges), (0,)


def open_plain(bundle: Bundle, work: Plain) -> Tuple[Optional[Weights], Verdict]:
    """The weights of plain work, with (0,); or None with the verdict on a member, an edge or a stake."""
    seen: Set[int] = set()
    for member in work.committee:
        if member >= len(bundle.targets):
            return None, (3, member)
        if member in seen:
            return None, (5, member)
        seen.add(member)
    fault = plain_fault(bundle, work, seen)
    return (None, fault) if fault else (Weights(sorted(seen), work.edges), (0,))


def plain_fault(bundle: Bundle, work: Plain, members: Set[int]) -> Optional[Verdict]:
    """The first verdict on the edges of plain work, or None."""
    pairs: Set[Tuple[int, int]] = set()
    for voter, target, _ in work.edges:
        if voter >= len(bundle.voters):
            return 2, voter
        if target not in members:
            return 3, target
        if target not in bundle.voters[voter].votes:
            return 6, voter, target
        if (voter, target) in pairs:
            return 5, target
        pairs.add((voter, target))
    spent = [0] * len(bundle.voters)
    for voter, _, amount in work.edges:
        spent[voter] += amount
    return next(((11, i) for i, voter in enumerate(bundle.voters) if spent[i] > voter.stake), None)


# ## What weights come to

def supports_of(weights: Weights) -> Dict[int, int]:
    """The support of each member, by rising position."""
    supports = dict.fromkeys(weights.members, 0)
    for _, target, amount in weights.edges:
        supports[target] += amount
    return supports


def score_of(weights: Weights) -> Score:
    """The least support, the sum of the supports, and the sum of their squares."""
    supports = supports_of(weights).values()
    return min(supports, default=0), sum(supports), sum(support * support for support in supports)


def slack_of(bundle: Bundle, weights: Weights) -> List[int]:
    """What each voter has left: its stake less what its edges pay for seats."""
    price, supports = bundle.price(), supports_of(weights)
    left = [voter.stake for voter in bundle.voters]
    for voter, target, amount in weights.edges:
        support = supports[target]
        left[voter] -= amount * min(price, support) // support if support else 0
    return left


def prescores_of(bundle: Bundle, slack: List[int]) -> List[int]:
    """What the nominators of each target have left in all."""
    scores = [0] * len(bundle.targets)
    for voter, left in zip(bundle.voters, slack):
        for vote in voter.votes:
            scores[vote] += left
    return scores


def verdict_on(bundle: Bundle, weights: Weights, claim: Optional[Score]) -> Verdict:
    """The verdict on weights of good form, with the score that is claimed for them, if any."""
    if len(weights.members) != bundle.seats:
        return 8, len(weights.members)
    if claim is not None and claim != score_of(weights):
        return (9, *score_of(weights))
    price, members = bundle.price(), set(weights.members)
    for target, prescore in enumerate(prescores_of(bundle, slack_of(bundle, weights))):
        if target not in members and prescore >= price:
            return 10, target, prescore
    return (0,)


def judge(bundle: Bundle) -> Tuple[Optional[Weights], Verdict]:
    """The weights of a bundle's work, where they are of good form, and the verdict on the work."""
    work = bundle.work
    assert work is not None
    weights, verdict = expand(bundle, work.solution) if isinstance(work, Packed) else open_plain(bundle, work)
    if weights is None:
        return None, verdict
    return weights, verdict_on(bundle, weights, work.claim if isinstance(work, Packed) else None)


# ## The fill

def fill(bundle: Bundle) -> Weights:
    """The fill: seat after seat the target whose nominators have the most left, which draws a seat's price."""
    price = bundle.price()
    left = [voter.stake for voter in bundle.voters]
    nominators: List[List[int]] = [[] for _ in bundle.targets]
    for i, voter in enumerate(bundle.voters):
        for vote in voter.votes:
            nominators[vote].append(i)
    sums = prescores_of(bundle, left)
    outside, edges = set(range(len(bundle.targets))), []
    for _ in range(bundle.seats):
        pick = min(outside, key=lambda target: (-sums[target], target))
        outside.remove(pick)
        due = price
        for voter in nominators[pick]:
            amount = min(due, left[voter])
            if amount == 0:
                continue
            due, left[voter] = due - amount, left[voter] - amount
            edges.append((voter, pick, amount))
            for vote in bundle.voters[voter].votes:
                sums[vote] -= amount
    return Weights(sorted(set(range(len(bundle.targets))) - outside), sorted(edges))
